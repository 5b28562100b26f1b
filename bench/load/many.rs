//! Many networks, with two sessions each.

use crate::client::Client;
use crate::{Bouncer, network, process, tell};
use std::net::TcpListener;
use std::thread;
use std::time::Duration;

const NETWORKS: usize = 1_000;
const CHANNELS: usize = 10;
const MEMBERS: usize = 50;

/// What a bouncer holds with its networks in, and with two sessions for each, while nothing
/// happens.
pub fn run(bouncer: &Bouncer) {
    let pid = bouncer.pid;
    let listener = TcpListener::bind(("127.0.0.1", bouncer.network)).unwrap();
    let held = process::memory(pid);
    let mut networks = Vec::new();
    for _ in 0..NETWORKS {
        networks.push(network::let_in(&listener, CHANNELS, MEMBERS));
    }
    thread::sleep(Duration::from_secs(3));
    tell("network_kib", (process::memory(pid) - held) / NETWORKS as f64);
    let mut clients = Vec::new();
    for number in 0..2 * NETWORKS {
        let password = bouncer.password.replacen("ann", &format!("ann{}", number / 2), 1);
        clients.push(Client::attach(bouncer, &password, "none", CHANNELS));
    }
    thread::sleep(Duration::from_secs(3));
    tell("many_mib", process::memory(pid) / 1_024.0);
    tell("many_threads", process::threads(pid));
    tell("many_descriptors", process::descriptors(pid));
    let before = process::sleeps(pid);
    thread::sleep(Duration::from_secs(5));
    tell("many_idle", (process::sleeps(pid) - before) / 5.0);
}
