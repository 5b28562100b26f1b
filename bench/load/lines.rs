//! Lines to some sessions of one network: 20 channels of 100 members.

use crate::client::{Client, TIMED};
use crate::{Bouncer, middle_and_late, network, process, tell};
use std::io::Write;
use std::net::{TcpListener, TcpStream};
use std::sync::mpsc::{Receiver, channel};
use std::thread;
use std::time::{Duration, Instant};

const CHANNELS: usize = 20;
const MEMBERS: usize = 100;

/// How many lines are delivered at full speed, to all sessions together.
const DELIVERIES: u64 = 400_000;

const LINE: &[u8] =
    b":nick42!user@host.example PRIVMSG #c0 :the quick brown fox jumps over the dog\r\n";

/// A network whose sessions read on.
struct Scene {
    network: TcpStream,
    pid: i32,
    sessions: usize,
    timed: Receiver<Option<(Instant, u64)>>,
}

impl Scene {
    /// Sends a line that is timed; how many microseconds later it came to each session. `None`
    /// where a session was cut, or fewer lines came before it than were sent.
    fn time_one(&mut self, before: u64) -> Option<Vec<f64>> {
        let sent = Instant::now();
        self.network.write_all(b":nick42!u@h PRIVMSG #c0 :").ok()?;
        self.network.write_all(TIMED).ok()?;
        let mut late = Vec::new();
        for _ in 0..self.sessions {
            let (at, lines) = self.timed.recv_timeout(Duration::from_secs(60)).ok()??;
            if lines < before {
                return None;
            }
            late.push(at.duration_since(sent).as_secs_f64() * 1e6);
        }
        Some(late)
    }

    /// Times lines, each sent when the one before came, or so much later.
    fn time_some(&mut self, name: &str, rounds: usize, gap: Duration) -> Option<()> {
        let mut late = Vec::new();
        for _ in 0..rounds {
            late.extend(self.time_one(0)?);
            thread::sleep(gap);
        }
        let (middle, last) = middle_and_late(&mut late);
        tell(&format!("{name}_p50"), middle);
        tell(&format!("{name}_p99"), last);
        Some(())
    }

    /// Sends lines by `send`, and tells the processor time of each delivery.
    fn cost(&mut self, name: &str, lines: u64, send: impl Fn(&mut TcpStream, u64)) -> Option<()> {
        let (before, began) = (process::processor(self.pid), Instant::now());
        send(&mut self.network, lines);
        self.time_one(lines)?;
        let cost = process::processor(self.pid) - before;
        let deliveries = (lines * self.sessions as u64) as f64;
        tell(&format!("{name}_cpu"), cost / deliveries);
        tell(&format!("{name}_rate"), deliveries / began.elapsed().as_secs_f64());
        Some(())
    }

    /// All that is measured; `None` where a session is cut.
    fn measure(&mut self, held: f64) -> Option<()> {
        let (pid, sessions) = (self.pid, self.sessions);
        let name = |what: &str| format!("{what}{sessions}");
        if sessions == 1 {
            self.time_some("follow", 2_000, Duration::ZERO)?;
        }
        self.time_some(&name("lone"), 200, Duration::from_millis(5))?;
        self.cost(&name("full"), DELIVERIES / sessions as u64 / 100 * 100, flood)?;
        self.cost(&name("paced"), 8_000, pace)?;
        tell(&name("session_kib"), (process::memory(pid) - held) / sessions as f64);
        let before = process::sleeps(pid);
        thread::sleep(Duration::from_secs(3));
        tell(&name("idle"), (process::sleeps(pid) - before) / 3.0);
        Some(())
    }
}

/// All at once, a hundred in a write.
fn flood(network: &mut TcpStream, lines: u64) {
    let block = LINE.repeat(100);
    for _ in 0..lines / 100 {
        network.write_all(&block).unwrap();
    }
}

/// 4,000 a second, one after the other.
fn pace(network: &mut TcpStream, lines: u64) {
    let began = Instant::now();
    for number in 0..lines {
        let due = began + Duration::from_micros(250) * number as u32;
        thread::sleep(due.saturating_duration_since(Instant::now()));
        network.write_all(LINE).unwrap();
    }
}

/// All that is measured of lines to so many sessions.
pub fn run(bouncer: &Bouncer, sessions: usize) {
    let listener = TcpListener::bind(("127.0.0.1", bouncer.network)).unwrap();
    let network = network::let_in(&listener, CHANNELS, MEMBERS);
    network::hear(&network);
    thread::sleep(Duration::from_secs(1));
    let (pid, held) = (bouncer.pid, process::memory(bouncer.pid));
    let (to, timed) = channel();
    for _ in 0..sessions {
        let client = Client::attach(bouncer, &bouncer.password, "none", CHANNELS);
        let to = to.clone();
        thread::spawn(move || client.read_on(to));
    }
    thread::sleep(Duration::from_millis(500));
    let mut scene = Scene { network, pid, sessions, timed };
    if scene.measure(held).is_none() {
        println!("cut{sessions} 1");
    }
}
