//! Runs a program once and prints what it used, on one line: user and system time in microseconds, peak memory in kilobytes,
//! and its status (or the number of the signal that ended it, negative).
//!
//!   measure SECONDS INPUT OUTPUT PROGRAM [ARGUMENT...]
//!
//! The program reads INPUT and writes OUTPUT; past so many seconds of processor time it is ended (0: no limit).
//! It is small on purpose: the kernel counts the memory of whoever starts a program as that program's own.

use std::fs::File;
use std::os::unix::process::ExitStatusExt;
use std::process::{Command, Stdio};

extern "C" {
    fn getrusage(who: i32, usage: *mut [i64; 18]) -> i32;
    fn setrlimit(resource: i32, limit: *const [u64; 2]) -> i32;
}

const RUSAGE_CHILDREN: i32 = -1;
const RLIMIT_CPU: i32 = 0;

fn main() {
    let args: Vec<String> = std::env::args().collect();
    let seconds: u64 = args[1].parse().unwrap();
    if seconds > 0 {
        let limit = [seconds, seconds];
        assert_eq!(unsafe { setrlimit(RLIMIT_CPU, &limit) }, 0);
    }
    let status = Command::new(&args[4])
        .args(&args[5..])
        .stdin(File::open(&args[2]).unwrap())
        .stdout(File::create(&args[3]).unwrap())
        .stderr(Stdio::null())
        .status()
        .unwrap();
    let mut usage = [0; 18];
    assert_eq!(unsafe { getrusage(RUSAGE_CHILDREN, &mut usage) }, 0);
    let code = status.code().unwrap_or_else(|| -status.signal().unwrap());
    println!("{} {} {} {}", usage[0] * 1_000_000 + usage[1], usage[2] * 1_000_000 + usage[3], usage[4], code);
}
