//! Settings files of bnc with many users.

use crate::tell;
use std::io::{BufRead, BufReader};
use std::process::{Command, Stdio};
use std::time::Instant;

/// The SHA-256 digest of `abc`: of the salt `a` and the password `bc`.
const DIGEST: &str = "ba7816bf8f01cfea414140de5dae2223b00361a396177a9cb410ff61f20015ad";

/// Prints a settings file whose users `ann`, or `ann0`, `ann1` and so on where there are several,
/// have a network each.
pub fn print(listen: &str, network: &str, users: &str) {
    println!("listen = \"127.0.0.1:{listen}\"\nretry = 1");
    let users: usize = users.parse().unwrap();
    for user in 0..users {
        let number = if users == 1 { String::new() } else { user.to_string() };
        println!("[[user]]\nname = \"ann{number}\"\nsalt = \"61\"\npassword = \"{DIGEST}\"");
        println!("[[user.network]]\nname = \"net\"\naddress = \"127.0.0.1:{network}\"");
        println!("nick = \"ann\"\nuser = \"ann\"\nrealname = \"Ann A\"\njoin = [\"#c0\"]");
    }
}

/// Tells after how many milliseconds `bnc serve` says that it listens.
pub fn time(bnc: &str, file: &str) {
    let began = Instant::now();
    let mut serve = Command::new(bnc);
    serve.args(["serve", file]).stdout(Stdio::piped()).stderr(Stdio::null());
    let mut child = serve.spawn().unwrap();
    let said = BufReader::new(child.stdout.take().unwrap());
    let listens = said.lines().any(|line| line.unwrap().starts_with("listening"));
    assert!(listens, "it never listened");
    tell("listening_ms", began.elapsed().as_secs_f64() * 1e3);
    child.kill().unwrap();
    // the next one listens at the same port
    child.wait().unwrap();
}
