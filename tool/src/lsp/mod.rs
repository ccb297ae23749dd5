//! A language server: the verdict beside the line in any editor (Language Server Protocol 3.17).

mod actions;
mod changes;
mod document;
mod findings;
mod fixes;
mod formatting;
mod hover;
pub mod json;
mod loop_facts;
mod protocol;
mod server;
mod service;
mod symbols;
#[cfg(test)]
mod tests;
mod text;
pub mod transport;
mod version;

use server::{Next, Server};
use std::io::{self, BufReader, Read, Write};
use std::sync::mpsc::{sync_channel, Receiver, SyncSender, TryRecvError};
use std::thread;
use transport::Received;

/// So many messages are read ahead; a client that sends more waits.
const READ_AHEAD: usize = 256;

/// Serves a client up to its `exit` or the end of its messages, and gives the exit status.
pub fn serve(input: impl Read + Send + 'static, output: impl Write) -> io::Result<u8> {
    let (sender, messages) = sync_channel(READ_AHEAD);
    thread::spawn(move || receive(input, &sender));
    let mut server = Server::new(output);
    while let Some(received) = next(&messages, &mut server)? {
        if let Next::Exit = server.take(received)? {
            break;
        }
    }
    Ok(server.status())
}

/// Messages as they come, while another thread answers: so it is seen that a change has overtaken a request.
fn receive(input: impl Read, sender: &SyncSender<Received>) {
    let mut receiver = transport::Receiver::new(BufReader::new(input));
    // The stream's end and an error of it are the same to a server.
    while let Ok(Some(received)) = receiver.receive() {
        if sender.send(received).is_err() {
            return;
        }
    }
}

/// The next message; while there is none the server does what waits.
fn next(messages: &Receiver<Received>, server: &mut Server<impl Write>) -> io::Result<Option<Received>> {
    loop {
        match messages.try_recv() {
            Ok(received) => return Ok(Some(received)),
            Err(TryRecvError::Disconnected) if !server.work()? => return Ok(None),
            Err(TryRecvError::Empty) if !server.work()? => return Ok(messages.recv().ok()),
            Err(_) => {}
        }
    }
}
