//! A client of a bouncer.

use crate::Bouncer;
use std::io::{Read, Write};
use std::net::TcpStream;
use std::sync::mpsc::Sender;
use std::thread;
use std::time::{Duration, Instant};

/// How a line ends whose arrival is timed.
pub const TIMED: &[u8] = b"later on\r\n";

/// A client that has logged in and read its burst.
pub struct Client {
    stream: TcpStream,
    /// The time from its connect until the last name list.
    pub took: Duration,
}

/// How many name lists end in a text of whole lines.
fn lists_in(text: &[u8]) -> usize {
    text.split(|byte| *byte == b'\n')
        .filter(|line| line.split(|byte| *byte == b' ').nth(1) == Some(b"366"))
        .count()
}

/// Connects to a bouncer, which may take up to half a minute until it listens.
fn connect(port: u16) -> TcpStream {
    for _ in 0..600 {
        if let Ok(stream) = TcpStream::connect(("127.0.0.1", port)) {
            return stream;
        }
        thread::sleep(Duration::from_millis(50));
    }
    panic!("nobody listens at port {port}");
}

impl Client {
    /// Logs in, with the capabilities, where there are any, and reads until the name lists of all
    /// channels came.
    pub fn attach(bouncer: &Bouncer, password: &str, set: &str, channels: usize) -> Client {
        let mut stream = connect(bouncer.clients);
        let began = Instant::now();
        stream.set_nodelay(true).unwrap();
        stream.set_read_timeout(Some(Duration::from_secs(60))).unwrap();
        let (request, end) = match set {
            "none" => (String::new(), ""),
            set => (format!("CAP REQ :{}\r\n", set.replace(',', " ")), "CAP END\r\n"),
        };
        let login = format!("{request}PASS {password}\r\nNICK ann\r\nUSER ann 0 * :x\r\n{end}");
        stream.write_all(login.as_bytes()).unwrap();
        let (mut buffer, mut rest, mut ends) = (vec![0u8; 262_144], Vec::new(), 0);
        while ends < channels {
            let count = stream.read(&mut buffer).unwrap();
            assert!(count > 0, "refused: {}", String::from_utf8_lossy(&rest));
            rest.extend_from_slice(&buffer[..count]);
            let whole = rest.iter().rposition(|byte| *byte == b'\n').map_or(0, |at| at + 1);
            ends += lists_in(&rest[..whole]);
            rest.drain(..whole);
        }
        stream.set_read_timeout(None).unwrap();
        Client { stream, took: began.elapsed() }
    }

    /// By which its connection can be shut while it reads on.
    pub fn door(&self) -> TcpStream {
        self.stream.try_clone().unwrap()
    }

    /// Reads all that comes, and tells when each timed line came, and how many lines came up to it;
    /// `None` where the bouncer ends the connection.
    pub fn read_on(mut self, timed: Sender<Option<(Instant, u64)>>) {
        let (mut buffer, mut tail, mut lines) = (vec![0u8; 262_144], Vec::new(), 0);
        while let Ok(count @ 1..) = self.stream.read(&mut buffer) {
            let piece = &buffer[..count];
            lines += piece.iter().filter(|byte| **byte == b'\n').count() as u64;
            tail.extend_from_slice(&piece[count.saturating_sub(TIMED.len())..]);
            tail.drain(..tail.len().saturating_sub(TIMED.len()));
            if tail == TIMED {
                timed.send(Some((Instant::now(), lines))).unwrap();
            }
        }
        // nobody may hear it any more
        let _ = timed.send(None);
    }
}
