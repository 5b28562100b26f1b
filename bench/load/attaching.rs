//! Attaches to 200 channels of 100 members.

use crate::client::{Client, TIMED};
use crate::{Bouncer, middle_and_late, network, process, tell};
use std::io::Write;
use std::net::{TcpListener, TcpStream};
use std::sync::mpsc::{Receiver, channel};
use std::thread;
use std::time::{Duration, Instant};

const CHANNELS: usize = 200;
const MEMBERS: usize = 100;

/// How many pairs of attaches there are.
const PAIRS: usize = 15;

/// What one attach cost: processor time, and the time until the last name list, in milliseconds.
fn one(bouncer: &Bouncer, set: &str) -> (f64, f64) {
    let before = process::processor(bouncer.pid);
    let client = Client::attach(bouncer, &bouncer.password, set, CHANNELS);
    let took = client.took.as_secs_f64() * 1e3;
    thread::sleep(Duration::from_millis(50));
    let cost = (process::processor(bouncer.pid) - before) / 1e3;
    drop(client);
    thread::sleep(Duration::from_millis(50));
    (cost, took)
}

fn tell_some(name: &str, mut some: Vec<(f64, f64)>) {
    let mut costs: Vec<f64> = some.iter().map(|one| one.0).collect();
    let mut times: Vec<f64> = some.drain(..).map(|one| one.1).collect();
    tell(&format!("{name}_cpu"), middle_and_late(&mut costs).0);
    tell(&format!("{name}_time"), middle_and_late(&mut times).0);
}

/// What the network's state has changes.
fn change_topic(network: &mut TcpStream, number: usize) {
    network.write_all(format!(":s TOPIC #c0 :topic {number}\r\n").as_bytes()).unwrap();
    thread::sleep(Duration::from_millis(20));
}

/// How many milliseconds a line took at most, of lines one after the other to a session that is
/// there, while so many attach at once.
fn delay(
    bouncer: &Bouncer,
    network: &mut TcpStream,
    timed: &Receiver<Option<(Instant, u64)>>,
    set: &str,
    count: usize,
) -> f64 {
    thread::scope(|scope| {
        let attach = || Client::attach(bouncer, &bouncer.password, set, CHANNELS);
        let clients: Vec<_> = (0..count).map(|_| scope.spawn(attach)).collect();
        let mut longest = Duration::ZERO;
        while clients.iter().any(|client| !client.is_finished()) {
            let sent = Instant::now();
            network.write_all(b":nick42!u@h PRIVMSG #c0 :").unwrap();
            network.write_all(TIMED).unwrap();
            let (at, _) = timed.recv_timeout(Duration::from_secs(60)).unwrap().unwrap();
            longest = longest.max(at.duration_since(sent));
        }
        longest.as_secs_f64() * 1e3
    })
}

/// Pairs of attaches with these capabilities, `plain` without and `people` with: before the first of
/// each the network says something that its state has, and before the second nothing. Then how
/// long a line is delayed while one and while ten attach at once.
pub fn run(bouncer: &Bouncer, set: &str) {
    let listener = TcpListener::bind(("127.0.0.1", bouncer.network)).unwrap();
    let mut network = network::let_in(&listener, CHANNELS, MEMBERS);
    network::hear(&network);
    thread::sleep(Duration::from_secs(2));
    let (mut first, mut second) = (Vec::new(), Vec::new());
    for pair in 0..PAIRS {
        change_topic(&mut network, pair);
        first.push(one(bouncer, set));
        second.push(one(bouncer, set));
    }
    let name = if set == "none" { "plain" } else { "people" };
    tell_some(&format!("first_{name}"), first);
    tell_some(&format!("second_{name}"), second);
    let (to, timed) = channel();
    let there = Client::attach(bouncer, &bouncer.password, set, CHANNELS);
    thread::spawn(move || there.read_on(to));
    for count in [1, 10] {
        let mut delays = Vec::new();
        for round in 0..PAIRS {
            change_topic(&mut network, count * 100 + round);
            delays.push(delay(bouncer, &mut network, &timed, set, count));
        }
        tell(&format!("delay{count}_{name}"), middle_and_late(&mut delays).0);
    }
}
