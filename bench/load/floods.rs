//! Floods to sessions that all read, beside processes that take every processor.

use crate::client::{Client, TIMED};
use crate::{Bouncer, network, tell};
use std::io::Write;
use std::net::{Shutdown, TcpListener, TcpStream};
use std::process::{Child, Command, Stdio};
use std::sync::mpsc::{Receiver, channel};
use std::thread;
use std::time::{Duration, Instant};

const SESSIONS: usize = 8;

/// Lines of each flood.
const LINES: u64 = 200_000;

const LINE: &[u8] =
    b":nick42!user@host.example PRIVMSG #c0 :the quick brown fox jumps over the dog\r\n";

/// Processes that do nothing but take a processor each, until they are dropped.
struct Busy(Vec<Child>);

impl Busy {
    fn start(count: usize) -> Busy {
        let one = |_| {
            let mut command = Command::new("sh");
            command.args(["-c", "while :; do :; done"]).stdin(Stdio::null());
            command.spawn().unwrap()
        };
        Busy((0..count).map(one).collect())
    }
}

impl Drop for Busy {
    fn drop(&mut self) {
        for one in &mut self.0 {
            let _ = one.kill();
            let _ = one.wait();
        }
    }
}

/// Attaches the sessions, which read on, and gives what shuts their connections.
fn attach(bouncer: &Bouncer) -> (Receiver<Option<(Instant, u64)>>, Vec<TcpStream>) {
    let (to, timed) = channel();
    let doors = (0..SESSIONS).map(|_| {
        let client = Client::attach(bouncer, &bouncer.password, "none", 1);
        let (door, to) = (client.door(), to.clone());
        thread::spawn(move || client.read_on(to));
        door
    });
    let doors = doors.collect();
    (timed, doors)
}

/// Sends a flood and a line that is timed, and says how many sessions did not get all of it.
fn flood(network: &mut TcpStream, timed: &Receiver<Option<(Instant, u64)>>) -> usize {
    let block = LINE.repeat(100);
    for _ in 0..LINES / 100 {
        network.write_all(&block).unwrap();
    }
    network.write_all(b":nick42!u@h PRIVMSG #c0 :").unwrap();
    network.write_all(TIMED).unwrap();
    (0..SESSIONS)
        .filter(|_| match timed.recv_timeout(Duration::from_secs(300)) {
            Ok(Some((_, lines))) => lines < LINES,
            _ => true,
        })
        .count()
}

/// So many floods beside so many busy processes: how many sessions were cut, and the seconds of a
/// flood on average.
pub fn run(bouncer: &Bouncer, floods: usize, busy: usize) {
    let listener = TcpListener::bind(("127.0.0.1", bouncer.network)).unwrap();
    let mut network = network::let_in(&listener, 1, 10);
    network::hear(&network);
    thread::sleep(Duration::from_secs(1));
    let _busy = Busy::start(busy);
    let (mut cut, mut took) = (0, Duration::ZERO);
    for _ in 0..floods {
        let (timed, doors) = attach(bouncer);
        let began = Instant::now();
        cut += flood(&mut network, &timed);
        took += began.elapsed();
        for door in doors {
            // one that was cut is shut already
            let _ = door.shutdown(Shutdown::Both);
        }
    }
    tell("floods", floods as f64);
    tell("sessions_cut", cut as f64);
    tell("flood_seconds", took.as_secs_f64() / floods as f64);
}
