//! The BLAKE2b of Python's hashlib, timed in its own process.

use std::io::{BufRead, BufReader, Write};
use std::process::{Child, ChildStdin, ChildStdout, Command, Stdio};

/// Python's hashlib, whose BLAKE2b is optimised C, kept running so that the sides can take turns.
pub struct Hashlib {
    child: Child,
    to: ChildStdin,
    from: BufReader<ChildStdout>,
}

const PYTHON: &str = "
import hashlib, sys, time
for line in sys.stdin:
    size, times = map(int, line.split())
    data = bytes(size)
    start = time.thread_time_ns()
    for _ in range(times):
        hashlib.blake2b(data, digest_size=32).digest()
    print((time.thread_time_ns() - start) / times, flush=True)
";

impl Hashlib {
    pub fn start() -> Option<Self> {
        let mut child = Command::new("python3")
            .args(["-c", PYTHON])
            .stdin(Stdio::piped())
            .stdout(Stdio::piped())
            .spawn()
            .ok()?;
        let to = child.stdin.take()?;
        let from = BufReader::new(child.stdout.take()?);
        Some(Self { child, to, from })
    }

    pub fn time(&mut self, size: usize, times: u32) -> f64 {
        let mut answer = String::new();
        writeln!(self.to, "{size} {times}").expect("python3 reads");
        self.from.read_line(&mut answer).expect("python3 answers");
        answer.trim().parse().expect("a time")
    }

    pub fn end(mut self) {
        drop(self.to);
        self.child.wait().expect("python3 ends");
    }
}
