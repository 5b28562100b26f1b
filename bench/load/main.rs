//! Networks and clients for a bouncer, to see what it costs. Each step prints lines `figure value`.
//!
//! ```text
//! load NETWORK_PORT CLIENT_PORT PID PASSWORD SESSIONS    lines to so many sessions
//! load NETWORK_PORT CLIENT_PORT PID PASSWORD attach SET  attaches to 200 channels of 100 members
//! load NETWORK_PORT CLIENT_PORT PID PASSWORD many        1,000 networks with 2,000 sessions
//! load NETWORK_PORT CLIENT_PORT PID PASSWORD floods N M  N floods to 8 sessions beside M busy processes
//! load settings LISTEN_PORT NETWORK_PORT USERS           a settings file of bnc with so many users
//! load listening BNC FILE                                the time until bnc listens
//! load cost FIGURE PROGRAM WORD..                        what a program takes that ends by itself
//! ```
//!
//! It listens for the bouncer at the network's port, and its clients log in at the clients' port.
//! PID is the bouncer's, and PASSWORD what its clients log in with. `SET` names capabilities, joined
//! by commas, or is `none`.

mod attaching;
mod client;
mod floods;
mod lines;
mod many;
mod network;
mod process;
mod settings;

/// Prints a figure.
pub fn tell(figure: &str, value: f64) {
    println!("{figure} {value:.3}");
}

/// The value in the middle, and the one that a hundredth is above. It sorts them.
pub fn middle_and_late(values: &mut [f64]) -> (f64, f64) {
    values.sort_by(f64::total_cmp);
    (values[values.len() / 2], values[values.len() * 99 / 100])
}

/// Where the bouncer is.
pub struct Bouncer {
    /// The port at which it finds its networks.
    pub network: u16,
    /// The port at which its clients find it.
    pub clients: u16,
    /// Its process.
    pub pid: i32,
    /// What a client sends as PASS.
    pub password: String,
}

fn main() {
    // what went wrong is one line, which bench/table.sh shows
    std::panic::set_hook(Box::new(|why| {
        let text = why.to_string().replace('\n', " ");
        eprintln!("load: {text}");
        std::process::exit(1);
    }));
    let words: Vec<String> = std::env::args().skip(1).collect();
    let words: Vec<&str> = words.iter().map(String::as_str).collect();
    match words[..] {
        ["settings", listen, network, users] => settings::print(listen, network, users),
        ["listening", bnc, file] => settings::time(bnc, file),
        ["cost", figure, program, ref words @ ..] => process::cost(figure, program, words),
        [network, clients, pid, password, ref what @ ..] => {
            let bouncer = Bouncer {
                network: network.parse().unwrap(),
                clients: clients.parse().unwrap(),
                pid: pid.parse().unwrap(),
                password: String::from(password),
            };
            match what {
                ["attach", set] => attaching::run(&bouncer, set),
                ["many"] => many::run(&bouncer),
                ["floods", floods, busy] => {
                    floods::run(&bouncer, floods.parse().unwrap(), busy.parse().unwrap());
                }
                [sessions] => lines::run(&bouncer, sessions.parse().unwrap()),
                _ => panic!("no such step"),
            }
        }
        _ => panic!("see the head of main.rs"),
    }
    // the clients' threads wait for more
    std::process::exit(0);
}
