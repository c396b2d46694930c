//! An ordinary Rust program that reports on a trace, without the library's code, and a comparison of its reports with
//! those of `envrun`.
//!
//!     tests-rust report < TRACE              the report of one trace
//!     tests-rust compare ENVRUN COUNT SEED   COUNT pseudo-random traces, valid and damaged, through both
//!     tests-rust longest ENVRUN COUNT SEED   the same with traces of about 65,536 bytes
//!     tests-rust long TICKS GAP > TRACE      a long trace with sixteen states, for timing
//!     tests-rust long TICKS GAP WAKE > TRACE the same with larger wake energies, so that its states come later

mod report;
mod traces;

use std::env;
use std::io::{self, Read, Write};
use std::process::{Command, Stdio};

fn envrun(path: &str, trace: &[u8]) -> io::Result<(Vec<u8>, bool)> {
    let mut child = Command::new(path).stdin(Stdio::piped()).stdout(Stdio::piped()).spawn()?;
    // A program that stops reading early closes its end: that is no failure of the comparison.
    let _ = child.stdin.take().expect("piped").write_all(trace);
    let output = child.wait_with_output()?;
    Ok((output.stdout, output.status.success()))
}

fn compare(make: fn(&mut traces::Random) -> Vec<u8>, path: &str, count: u64, seed: u64) -> io::Result<bool> {
    let mut random = traces::Random::new(seed);
    let mut lines = [0u64; 6];
    for number in 0..count {
        let trace = make(&mut random);
        let mine = report::report(&trace);
        let (theirs, ended) = envrun(path, &trace)?;
        if mine.as_bytes() != theirs || !ended {
            std::fs::write("differs.trace", &trace)?;
            println!("trace {number} differs (differs.trace)\n-- here\n{mine}-- envrun\n{}", String::from_utf8_lossy(&theirs));
            return Ok(false);
        }
        for line in mine.lines() {
            let words = ["device", "gap", "jam", "stop", "total", "end"];
            if let Some(kind) = words.iter().position(|word| line.split(' ').next() == Some(word)) {
                lines[kind] += 1;
            }
        }
    }
    println!("{count} traces, 0 differ; device {} gap {} jam {} stop {} total {} end {}", lines[0], lines[1], lines[2], lines[3], lines[4], lines[5]);
    Ok(true)
}

fn write_long(ticks: &str, gap: &str, wake: &str) -> io::Result<()> {
    let [ticks, gap, wake] = [ticks, gap, wake].map(|word| word.parse().expect("a number"));
    io::stdout().write_all(&traces::long(ticks, gap, wake))
}

fn main() -> io::Result<()> {
    let args: Vec<String> = env::args().collect();
    let words: Vec<&str> = args.iter().map(String::as_str).collect();
    match words[1..] {
        ["report"] => {
            let mut trace = Vec::new();
            io::stdin().take(65_537).read_to_end(&mut trace)?;
            io::stdout().write_all(report::report(&trace).as_bytes())
        }
        [kind @ ("compare" | "longest"), path, count, seed] => {
            let make = if kind == "compare" { traces::any } else { traces::longest };
            let same = compare(make, path, count.parse().expect("a count"), seed.parse().expect("a seed"))?;
            std::process::exit(if same { 0 } else { 1 })
        }
        ["long", ticks, gap] => write_long(ticks, gap, "1"),
        ["long", ticks, gap, wake] => write_long(ticks, gap, wake),
        _ => {
            eprintln!("usage: tests-rust report | compare ENVRUN COUNT SEED | longest ENVRUN COUNT SEED | long TICKS GAP [WAKE]");
            std::process::exit(2)
        }
    }
}
