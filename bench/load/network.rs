//! A network that lets a bouncer in.

use std::io::{BufRead, BufReader, Write};
use std::net::{TcpListener, TcpStream};
use std::thread;

/// How many bytes of nicks a line of a name list has at most.
const NAMES: usize = 400;

const WELCOME: &[u8] = b":s 001 ann :hi\r\n\
    :s 005 ann PREFIX=(ov)@+ CHANTYPES=# :are supported\r\n:s 376 ann :end\r\n";

/// What a network sends of a channel that was joined.
fn joined(channel: usize, members: usize) -> String {
    let mut text = format!(":ann!a@h JOIN #c{channel}\r\n");
    let mut names = String::from("ann");
    for member in 1..members {
        if names.len() > NAMES {
            text += &format!(":s 353 ann = #c{channel} :{names}\r\n");
            names.clear();
        }
        names += &format!(" nick{}", (channel * 31 + member) % 100_000);
    }
    let names = names.trim();
    text + &format!(":s 353 ann = #c{channel} :{names}\r\n:s 366 ann #c{channel} :End\r\n")
}

/// Answers a bouncer's registration, and joins it to the channels at its first JOIN.
pub fn let_in(listener: &TcpListener, channels: usize, members: usize) -> TcpStream {
    let (mut network, _) = listener.accept().unwrap();
    network.set_nodelay(true).unwrap();
    let mut lines = BufReader::new(network.try_clone().unwrap());
    let (mut line, mut negotiates) = (String::new(), false);
    while !line.starts_with("JOIN") {
        line.clear();
        assert!(lines.read_line(&mut line).unwrap() > 0, "the bouncer has gone");
        let answer: &[u8] = if line.starts_with("CAP LS") {
            negotiates = true;
            b":s CAP * LS :multi-prefix\r\n"
        } else if line.starts_with("CAP REQ") {
            b":s CAP * ACK :multi-prefix\r\n"
        } else if line.starts_with("CAP END") || line.starts_with("USER") && !negotiates {
            WELCOME
        } else {
            b""
        };
        network.write_all(answer).unwrap();
    }
    let text: String = (0..channels).map(|channel| joined(channel, members)).collect();
    network.write_all(text.as_bytes()).unwrap();
    network
}

/// Reads what a bouncer says, so that it can go on saying it.
pub fn hear(network: &TcpStream) {
    let mut lines = BufReader::new(network.try_clone().unwrap());
    let mut line = Vec::new();
    thread::spawn(move || {
        while lines.read_until(b'\n', &mut line).unwrap_or(0) > 0 {
            line.clear();
        }
    });
}
