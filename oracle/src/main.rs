//! Reads case lines from standard input and writes one answer line for each. A panic of the crate is the answer `panic`.
use std::io::{BufRead, BufWriter, Write};
use std::panic::{catch_unwind, AssertUnwindSafe};

fn run() {
    std::panic::set_hook(Box::new(|_| {}));
    let mut out = BufWriter::new(std::io::stdout().lock());
    for line in std::io::stdin().lock().lines() {
        let line = line.expect("a line");
        let said = catch_unwind(AssertUnwindSafe(|| oracle::answer(&line)));
        writeln!(out, "{}", said.unwrap_or_else(|_| "panic".to_string())).expect("an answer is written");
    }
}

fn main() {
    // lists that are bad may be nested as deep as they are long
    let deep = std::thread::Builder::new().stack_size(1 << 28);
    deep.spawn(run).expect("a thread").join().expect("an end");
}
