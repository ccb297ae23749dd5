//! 100,000 damaged messages: the server answers what comes after them.

mod support;

use mizzengrape_tool::lsp::json::Json;
use mizzengrape_tool::lsp::serve;
use mizzengrape_tool::lsp::transport::{Received, Receiver};
use std::io::{self, Read};
use support::Random;

const MESSAGES: u64 = 100_000;
/// After so many the server is asked something.
const BETWEEN: u64 = 500;
/// A damaged length takes no more than this of what follows.
const MOST_TAKEN: usize = 2000;

/// Messages of a client, all but those that end the server.
fn messages() -> Vec<String> {
    let text = "void f(array_ptr<unsigned> p : count(n), unsigned n)\\n{\\n    n = n - 1;\\n}\\n";
    let range = r#"{"start":{"line":2,"character":4},"end":{"line":2,"character":5}}"#;
    let document = r#""textDocument":{"uri":"u","version":3}"#;
    let notification = |method: &str, params: &str| {
        format!(r#"{{"jsonrpc":"2.0","method":"{method}","params":{{{params}}}}}"#)
    };
    let request = |method: &str, params: &str| {
        format!(r#"{{"jsonrpc":"2.0","id":"r","method":"{method}","params":{{{document},{params}}}}}"#)
    };
    let opened = format!(r#""textDocument":{{"uri":"u","languageId":"c","version":1,"text":"{text}"}}"#);
    let changed = format!(
        r#"{document},"contentChanges":[{{"range":{range},"text":"\ud83d\ude00"}},{{"text":"{text}"}}]"#
    );
    vec![
        notification("textDocument/didOpen", &opened),
        notification("textDocument/didChange", &changed),
        notification("textDocument/didSave", document),
        notification("textDocument/didClose", document),
        notification("$/cancelRequest", r#""id":"r""#),
        request("textDocument/hover", r#""position":{"line":2,"character":4}"#),
        request(
            "textDocument/codeAction",
            &format!(r#""range":{range},"context":{{"diagnostics":[],"only":["quickfix"]}}"#),
        ),
        request("textDocument/formatting", r#""options":{"tabSize":4}"#),
        request("textDocument/documentSymbol", r#""x":1"#),
        request("initialize", r#""capabilities":{}"#),
    ]
}

/// A stream of damaged messages, with a request after each few.
struct Stream {
    messages: Vec<String>,
    number: u64,
    bytes: Vec<u8>,
    given: usize,
}

impl Read for Stream {
    fn read(&mut self, buffer: &mut [u8]) -> io::Result<usize> {
        if self.given == self.bytes.len() {
            self.given = 0;
            self.bytes = if self.number > MESSAGES { Vec::new() } else { self.next() };
            self.number += 1;
        }
        let count = buffer.len().min(self.bytes.len() - self.given);
        buffer[..count].copy_from_slice(&self.bytes[self.given..self.given + count]);
        self.given += count;
        Ok(count)
    }
}

impl Stream {
    fn next(&mut self) -> Vec<u8> {
        if self.number % BETWEEN == 0 {
            // Lines that fill up what a damaged length still takes.
            let asked = framed(&format!(r#"{{"jsonrpc":"2.0","id":{},"method":"asked"}}"#, self.number));
            let first = framed(r#"{"jsonrpc":"2.0","id":"first","method":"initialize","params":{}}"#);
            return [vec![b'\n'; MOST_TAKEN], first, asked].concat();
        }
        let mut random = Random::of(37, self.number);
        let message = &self.messages[random.below(self.messages.len())];
        let mut bytes =
            if random.chance(40) { framed(&reshaped(&mut random, message)) } else { framed(message) };
        if random.chance(70) {
            (0..1 + random.below(3)).for_each(|_| damage(&mut random, &mut bytes));
        }
        if bytes.is_empty() || takes_too_much(&bytes) {
            return Vec::from(*b"\r\n");
        }
        bytes
    }
}

fn framed(body: &str) -> Vec<u8> {
    format!("Content-Length: {}\r\n\r\n{body}", body.len()).into_bytes()
}

/// Whether a length among these bytes would take much of what follows.
fn takes_too_much(bytes: &[u8]) -> bool {
    let text = String::from_utf8_lossy(bytes).to_ascii_lowercase();
    let lengths = text.split("content-length:").skip(1).map(|rest| rest.trim_start());
    let mut digits = lengths.map(|rest| rest.bytes().take_while(u8::is_ascii_digit).count());
    digits.any(|digits| digits > 3)
}

/// One byte or a few gone, changed, doubled or new.
fn damage(random: &mut Random, bytes: &mut Vec<u8>) {
    if bytes.is_empty() {
        return;
    }
    let at = random.below(bytes.len());
    let length = (1 + random.below(20)).min(bytes.len() - at);
    match random.below(6) {
        0 => drop(bytes.drain(at..at + length)),
        1 => bytes.truncate(at.max(1)),
        2 => bytes[at] = random.next() as u8,
        3 => bytes.insert(at, random.next() as u8),
        4 => {
            let copied = bytes[at..at + length].to_vec();
            bytes.splice(at..at, copied);
        }
        _ => {
            let pieces: [&[u8]; 8] = [b"{", b"}", b"\"", b"\\u", b"\r\n\r\n", b"[[[[", b"null", b"\xff\xfe"];
            bytes.splice(at..at, pieces[random.below(pieces.len())].iter().copied());
        }
    }
}

/// JSON of another shape: somewhere a value is another one, or a member is gone.
fn reshaped(random: &mut Random, message: &str) -> String {
    let mut json = Json::read(message).expect("JSON");
    reshape(random, &mut json);
    json.to_string()
}

fn reshape(random: &mut Random, value: &mut Json) {
    let others = [
        Json::Null,
        Json::Bool(true),
        Json::from(-1),
        Json::from(u32::MAX),
        Json::from("x"),
        Json::Array(Vec::new()),
    ];
    match value {
        Json::Object(members) if !members.is_empty() && random.chance(90) => {
            let member = random.below(members.len());
            if random.chance(10) {
                members.remove(member);
            } else {
                reshape(random, &mut members[member].1);
            }
        }
        Json::Array(values) if !values.is_empty() && random.chance(80) => {
            let element = random.below(values.len());
            reshape(random, &mut values[element]);
        }
        _ => *value = others[random.below(others.len())].clone(),
    }
}

#[test]
fn no_message_ends_the_server() {
    let stream = Stream { messages: messages(), number: 0, bytes: Vec::new(), given: 0 };
    let mut output = Vec::new();
    let status = serve(stream, &mut output).expect("a vector grows");
    assert_eq!(status, 1, "the stream ends without a shutdown");
    let mut receiver = Receiver::new(&output[..]);
    let (mut asked, mut errors) = (Vec::new(), 0);
    while let Some(received) = receiver.receive().expect("a vector") {
        let Received::Message(message) = received else { panic!("{received:?}") };
        errors += u64::from(message.get("error").is_some());
        asked.extend(message.get("id").and_then(Json::as_u32));
    }
    // Numbers that a damaged message made up are not counted.
    asked.retain(|number| u64::from(*number) % BETWEEN == 0);
    asked.dedup();
    let due: Vec<u32> = (0..=MESSAGES).step_by(BETWEEN as usize).map(|number| number as u32).collect();
    assert_eq!(asked, due);
    assert!(errors > MESSAGES / 4, "{errors}");
}
