//! Messages on a stream: a header with `Content-Length`, an empty line, so many bytes of JSON. What is damaged is told, and the reader goes on
//! with the next header that it finds.

use super::json::Json;
use std::io::{self, BufRead, Read, Write};

/// Longer messages are not taken: a text of 1 MiB, each byte escaped, has 6 MiB.
pub const MOST_BYTES: u64 = 64 << 20;

const CONTENT_LENGTH: &str = "content-length:";

#[derive(Debug, PartialEq, Eq)]
pub enum Received {
    Message(Json),
    /// What was no message, in words.
    Damaged(String),
}

pub struct Receiver<R> {
    input: R,
    /// The length of a message whose header is behind.
    due: Option<u64>,
}

impl<R: BufRead> Receiver<R> {
    pub fn new(input: R) -> Receiver<R> {
        Receiver { input, due: None }
    }

    /// The next message; none at the end of the stream.
    pub fn receive(&mut self) -> io::Result<Option<Received>> {
        if let Some(length) = self.due.take() {
            return self.body(length);
        }
        let Some(header) = self.header()? else { return Ok(None) };
        match header {
            Header { length: Some(length), damage: None } => self.body(length),
            Header { length, damage } => {
                self.due = length;
                let what = damage.unwrap_or_else(|| "a header without Content-Length".to_string());
                Ok(Some(Received::Damaged(what)))
            }
        }
    }

    /// Lines up to an empty one, behind which the body begins.
    fn header(&mut self) -> io::Result<Option<Header>> {
        let mut header = Header { length: None, damage: None };
        let mut is_empty = true;
        loop {
            let mut line = Vec::new();
            self.input.by_ref().take(MOST_BYTES).read_until(b'\n', &mut line)?;
            if line.is_empty() {
                return Ok(None);
            }
            let line = String::from_utf8_lossy(&line);
            match line.trim_end_matches(['\r', '\n']) {
                // Lines that are left over between messages.
                "" if is_empty => continue,
                "" => return Ok(Some(header)),
                field => header.read(field),
            }
            is_empty = false;
        }
    }

    fn body(&mut self, length: u64) -> io::Result<Option<Received>> {
        let mut body = Vec::new();
        self.input.by_ref().take(length).read_to_end(&mut body)?;
        if (body.len() as u64) < length {
            return Ok(None);
        }
        let read = String::from_utf8(body)
            .map_err(|error| format!("the message is no UTF-8 at byte {}", error.utf8_error().valid_up_to()))
            .and_then(|text| Json::read(&text).map_err(|damage| format!("the message is no JSON: {damage}")));
        Ok(Some(read.map_or_else(Received::Damaged, Received::Message)))
    }
}

struct Header {
    length: Option<u64>,
    damage: Option<String>,
}

impl Header {
    /// A field. What is left of a damaged message may stand before one, on its line.
    fn read(&mut self, field: &str) {
        let Some(at) = field.to_ascii_lowercase().rfind(CONTENT_LENGTH) else {
            // Content-Type and the like change nothing.
            if !is_field(field) {
                self.damage = Some("no header of a message".to_string());
            }
            return;
        };
        if at > 0 {
            self.damage = Some("something stands before a header".to_string());
        }
        let value = field[at + CONTENT_LENGTH.len()..].trim();
        match value.parse::<u64>() {
            Ok(length) if length <= MOST_BYTES => self.length = Some(length),
            Ok(_) => self.damage = Some(format!("a message has {} MiB at most", MOST_BYTES >> 20)),
            Err(_) => self.damage = Some("Content-Length is no number".to_string()),
        }
    }
}

/// `Name: value`.
fn is_field(line: &str) -> bool {
    let is_token =
        |name: &str| !name.is_empty() && name.bytes().all(|b| b.is_ascii_alphanumeric() || b == b'-');
    line.split_once(':').is_some_and(|(name, _)| is_token(name))
}

pub fn send(output: &mut impl Write, message: &Json) -> io::Result<()> {
    let body = message.to_string();
    write!(output, "Content-Length: {}\r\n\r\n{body}", body.len())?;
    output.flush()
}

#[cfg(test)]
mod tests {
    use super::*;

    fn received(bytes: &[u8]) -> Vec<Received> {
        let mut receiver = Receiver::new(bytes);
        std::iter::from_fn(|| receiver.receive().expect("a slice can be read")).collect()
    }

    fn message(text: &str) -> Received {
        Received::Message(Json::read(text).expect("JSON"))
    }

    fn damaged(what: &str) -> Received {
        Received::Damaged(what.to_string())
    }

    #[test]
    fn messages_are_sent_and_received() {
        let mut bytes = Vec::new();
        for text in ["[1]", "{\"é\":\"😀\"}"] {
            send(&mut bytes, &Json::read(text).expect("JSON")).expect("a vector grows");
        }
        assert!(bytes.starts_with(b"Content-Length: 3\r\n\r\n[1]Content-Length: 13\r\n\r\n"));
        assert_eq!(received(&bytes), [message("[1]"), message("{\"é\":\"😀\"}")]);
        let other = b"content-length:1\nContent-Type: application/vscode-jsonrpc; charset=utf-8\n\n7\r\n\r\nCONTENT-LENGTH: 1\r\n\r\n8";
        assert_eq!(received(other), [message("7"), message("8")]);
    }

    #[test]
    fn what_is_damaged_is_told_and_the_next_message_is_found() {
        let next = "Content-Length: 1\r\n\r\n7";
        let after = |damage: &str| received(format!("{damage}{next}").as_bytes());
        let garbage = "something stands before a header";
        assert_eq!(after("garbage"), [damaged(garbage), message("7")]);
        assert_eq!(after("garbage\r\n"), [damaged("no header of a message"), message("7")]);
        assert_eq!(
            after("Content-Type: x\r\n\r\n"),
            [damaged("a header without Content-Length"), message("7")]
        );
        let no_json = "the message is no JSON: a value is due at byte 0";
        assert_eq!(after("Content-Length: 3\r\n\r\nx{}"), [damaged(no_json), message("7")]);
        // A length too short leaves a rest, one too long takes of the next message.
        let cut = "the message is no JSON: a string does not end at byte 3";
        assert_eq!(
            after("Content-Length: 3\r\n\r\n[\"abc\"]"),
            [damaged(cut), damaged(garbage), message("7")]
        );
        let long = "the message is no JSON: something stands behind the value at byte 2";
        assert_eq!(after("Content-Length: 9\r\n\r\n[]")[0], damaged(long));
        assert_eq!(after(&format!("Content-Length: 9\r\n\r\n[]{next}")).last(), Some(&message("7")));
        for (length, what) in [("x", "Content-Length is no number"), ("-1", "Content-Length is no number")] {
            let said = after(&format!("Content-Length: {length}\r\n\r\n{{}}"));
            assert_eq!(said, [damaged(what), damaged(garbage), message("7")]);
        }
        let said = after(&format!("Content-Length: {}\r\n\r\n{{}}", u64::MAX));
        assert_eq!(said, [damaged("a message has 64 MiB at most"), damaged(garbage), message("7")]);
        let utf8 = [&b"Content-Length: 2\r\n\r\n\"\xff"[..], next.as_bytes()].concat();
        assert_eq!(received(&utf8), [damaged("the message is no UTF-8 at byte 1"), message("7")]);
        // The end of the stream inside of a message is the end.
        assert_eq!(received(b"Content-Length: 9\r\n\r\n[]"), []);
        assert_eq!(received(b"Content-Le"), []);
    }
}
