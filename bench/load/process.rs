//! What a process uses.

use crate::tell;
use std::fs;
use std::process::{Command, Stdio};

#[repr(C)]
struct Time {
    seconds: i64,
    nanos: i64,
}

/// The times in user and system mode, the greatest memory in KiB, and what is not looked at.
#[repr(C)]
#[derive(Default)]
struct Usage {
    user: [i64; 2],
    system: [i64; 2],
    memory: i64,
    rest: [i64; 13],
}

unsafe extern "C" {
    fn clock_gettime(clock: i32, time: *mut Time) -> i32;
    fn getrusage(who: i32, usage: *mut Usage) -> i32;
}

/// The processor time of a process, in microseconds: of all its threads, also of those that ended.
pub fn processor(pid: i32) -> f64 {
    let mut time = Time { seconds: 0, nanos: 0 };
    // Linux's number for the clock of a process, as clock_getcpuclockid has it
    let clock = (!pid << 3) | 2;
    assert_eq!(unsafe { clock_gettime(clock, &mut time) }, 0, "the bouncer is gone");
    time.seconds as f64 * 1e6 + time.nanos as f64 / 1e3
}

fn status_of(path: &str, word: &str) -> Option<f64> {
    let text = fs::read_to_string(path).ok()?;
    let line = text.lines().find(|line| line.starts_with(word))?;
    line.split_whitespace().nth(1)?.parse().ok()
}

/// The memory that a process holds now, in KiB.
pub fn memory(pid: i32) -> f64 {
    status_of(&format!("/proc/{pid}/status"), "VmRSS:").unwrap()
}

/// How often the threads of a process went to sleep of their own accord.
pub fn sleeps(pid: i32) -> f64 {
    let threads = fs::read_dir(format!("/proc/{pid}/task")).unwrap();
    let path = |thread: fs::DirEntry| format!("{}/status", thread.path().display());
    threads
        .filter_map(|thread| status_of(&path(thread.ok()?), "voluntary_ctxt_switches:"))
        .sum()
}

/// How many threads a process has.
pub fn threads(pid: i32) -> f64 {
    status_of(&format!("/proc/{pid}/status"), "Threads:").unwrap()
}

/// How many descriptors a process has open.
pub fn descriptors(pid: i32) -> f64 {
    fs::read_dir(format!("/proc/{pid}/fd")).unwrap().count() as f64
}

/// Runs a program to its end, and tells its processor time in milliseconds and its greatest memory
/// in KiB.
pub fn cost(figure: &str, program: &str, words: &[&str]) {
    let ran = Command::new(program).args(words).stdout(Stdio::null()).status().unwrap();
    assert!(ran.success());
    let mut usage = Usage::default();
    // the children that have ended, of which there is one
    assert_eq!(unsafe { getrusage(-1, &mut usage) }, 0);
    let milliseconds = |time: [i64; 2]| time[0] as f64 * 1e3 + time[1] as f64 / 1e3;
    tell(&format!("{figure}_ms"), milliseconds(usage.user) + milliseconds(usage.system));
    tell(&format!("{figure}_kib"), usage.memory as f64);
}
