//! Runs a program and says what it took. A process that is started from a large one, as from
//! Python, shows that one's memory as its own peak; this one is small.
//!
//! Words: the most processor seconds, a file for standard output, one for standard error, the
//! program and its words. Writes its status (what `wait` gives), its processor time in
//! microseconds and its peak memory in kilobytes.

use std::fs::File;
use std::process::Command;

extern "C" {
    fn setrlimit(resource: i32, limit: *const [u64; 2]) -> i32;
    fn wait4(process: i32, status: *mut i32, options: i32, usage: *mut [i64; 18]) -> i32;
}

const RLIMIT_CPU: i32 = 0;

fn main() {
    let words: Vec<String> = std::env::args().skip(1).collect();
    let [seconds, out, errors, program, words @ ..] = words.as_slice() else {
        panic!("SECONDS OUT ERRORS PROGRAM WORDS");
    };
    let seconds: u64 = seconds.parse().expect("a number of seconds");
    // The second limit ends a program that the first one's signal doesn't end.
    let limited = unsafe { setrlimit(RLIMIT_CPU, &[seconds, seconds + 1]) };
    assert_eq!(limited, 0);
    let mut command = Command::new(program);
    command.args(words);
    command.stdout(File::create(out).expect("a file for standard output"));
    command.stderr(File::create(errors).expect("a file for standard error"));
    let child = command.spawn().expect("a program");
    let mut status = 0;
    // User and system time, seconds and microseconds each; then the peak memory.
    let mut usage = [0; 18];
    let ended = unsafe { wait4(child.id() as i32, &mut status, 0, &mut usage) };
    assert_eq!(ended, child.id() as i32);
    let [user, user_rest, system, system_rest, memory, ..] = usage;
    let micros = 1_000_000 * (user + system) + user_rest + system_rest;
    println!("{status} {micros} {memory}");
}
