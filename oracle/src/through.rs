//! Runs a program once for each input of a stream, and compares what it prints.
use crate::frames::Stream;
use std::io::{self, ErrorKind, Write};
use std::process::{Command, Stdio};
use std::sync::mpsc::{Receiver, sync_channel};
use std::sync::{Arc, Mutex};
use std::thread;

const WORKERS: usize = 2;
/// Cases that wait for a worker.
const WAITING: usize = 64;

/// A case: its place in the stream, the input, and the text that must be printed.
type Case = (usize, Vec<u8>, String);

/// How many cases a program got wrong, and the first of them with what the program did.
#[derive(Default)]
struct Wrong {
    count: usize,
    first: Option<(Case, String)>,
}

impl Wrong {
    fn add(&mut self, case: Case, did: String) {
        self.count += 1;
        if self.first.as_ref().is_none_or(|(first, _)| case.0 < first.0) {
            self.first = Some((case, did));
        }
    }

    fn join(mut self, other: Self) -> Self {
        let count = self.count + other.count;
        if let Some((case, did)) = other.first {
            self.add(case, did);
        }
        Self { count, ..self }
    }
}

/// What a program prints on an input, given as its standard input; or how it ended, where that was not well.
fn printed(program: &str, input: &[u8]) -> io::Result<Result<Vec<u8>, String>> {
    let mut child = Command::new(program).stdin(Stdio::piped()).stdout(Stdio::piped()).spawn()?;
    let written = child.stdin.take().expect("a pipe").write_all(input);
    let output = child.wait_with_output()?;
    match written {
        // It need not read all.
        Err(error) if error.kind() != ErrorKind::BrokenPipe => return Err(error),
        _ => {}
    }
    Ok(if output.status.success() { Ok(output.stdout) } else { Err(output.status.to_string()) })
}

/// Takes cases as long as there are some.
fn work(program: &str, cases: &Mutex<Receiver<Case>>) -> io::Result<Wrong> {
    let mut wrong = Wrong::default();
    loop {
        let next = cases.lock().expect("no panic").recv();
        let Ok(case) = next else {
            return Ok(wrong);
        };
        match printed(program, &case.1)? {
            Ok(text) if text == case.2.as_bytes() => {}
            Ok(text) => wrong.add(case, String::from_utf8_lossy(&text).into()),
            Err(status) => wrong.add(case, status),
        }
    }
}

fn show(wrong: &Wrong) {
    println!("differ {}", wrong.count);
    if let Some(((at, input, text), did)) = &wrong.first {
        let hex: String = input.iter().map(|byte| format!("{byte:02x}")).collect();
        println!("case {at}, counted from 0: {hex}\nmust print:\n{text}printed:\n{did}");
    }
}

/// Runs a program on the cases of a seed, and answers whether it printed all of them right. The Rust has one thread,
/// the one that makes the cases.
pub fn run(program: &str, stream: Stream, seed: u64, count: usize) -> io::Result<bool> {
    let (give, take) = sync_channel(WAITING);
    let take = Arc::new(Mutex::new(take));
    let workers: Vec<_> = (0..WORKERS)
        .map(|_| {
            let (program, take) = (program.to_owned(), Arc::clone(&take));
            thread::spawn(move || work(&program, &take))
        })
        .collect();
    // Where every worker has failed nobody takes any more.
    drop(take);
    let mut at = 0;
    let made = stream(seed, count, &mut |input, text| {
        at += 1;
        give.send((at - 1, input, text)).map_err(|_| io::Error::other("no worker is left"))
    });
    drop(give);
    let mut wrong = Wrong::default();
    for worker in workers {
        wrong = wrong.join(worker.join().expect("no panic")?);
    }
    made?;
    println!("cases {count}");
    show(&wrong);
    Ok(wrong.count == 0)
}
