//! The stream of trees with what they claim, and how often each choice came up in it.
use crate::choices::Maker;
use crate::rust::{self, Entry, TreeCall, register_tree};
use crate::startup::original::{held, hold};
use crate::tally::Tally;
use crate::tree_cases::TreeCase;
use crate::tree_edges::edges;
use std::collections::BTreeMap;
use std::io::{self, BufWriter, Write};

/// What a reader of the stream has room for.
const LARGEST: usize = 48_000;

/// The bytes of the stream.
#[derive(Default)]
struct Bytes(Vec<u8>);

impl Bytes {
    fn numbers(&mut self, numbers: &[u64]) {
        self.0.extend(numbers.iter().flat_map(|number| number.to_le_bytes()));
    }

    fn map(&mut self, map: &[Entry]) {
        self.numbers(&[map.len() as u64]);
        self.numbers(map.as_flattened());
    }

    /// Bytes, and zeros up to a multiple of 8.
    fn padded(&mut self, bytes: &[u8]) {
        self.0.extend(bytes);
        self.0.resize(self.0.len().next_multiple_of(8), 0);
    }
}

/// Counts an answer, and the claims by the line of dtb/mod.rs that makes them.
fn count(tally: &mut Tally, lines: &mut BTreeMap<u32, u64>, call: &TreeCall) {
    tally.answer(call.answer);
    for (_, line) in &call.heard {
        *lines.entry(*line).or_default() += 1;
    }
}

fn print(tally: &Tally, lines: &BTreeMap<u32, u64>) {
    let lines: Vec<String> = lines.iter().map(|(line, times)| format!("{line} {times}")).collect();
    tally.print_answers();
    eprintln!("claims by line of dtb/mod.rs: {}", lines.join(", "));
    tally.print_choices();
}

/// A case, and what the Rust did with it, as the bytes of the stream.
fn bytes(case: &TreeCase, call: &TreeCall) -> Vec<u8> {
    let mut out = Bytes::default();
    let counts = [case.before.len(), case.arm.into(), case.tree.len(), call.heard.len()];
    out.numbers(&counts.map(|count| count as u64));
    out.numbers(case.before.as_flattened());
    out.padded(&case.tree);
    out.numbers(&[call.answer]);
    for (claim, _) in &call.heard {
        out.numbers(claim);
    }
    out.map(&held());
    let translated = rust::translations(&case.tree);
    out.numbers(&[translated.len() as u64]);
    out.numbers(translated.as_flattened());
    assert!(out.0.len() <= LARGEST, "a case of {} bytes", out.0.len());
    out.0
}

/// Runs a case and writes it, and answers what came of it.
fn write(out: &mut impl Write, case: &TreeCase) -> io::Result<TreeCall> {
    hold(&[]);
    assert!(case.before.iter().all(|claim| rust::register(*claim) == rust::DONE), "not all accepted");
    let call = register_tree(&case.tree, case.arm);
    out.write_all(&bytes(case, &call))?;
    Ok(call)
}

/// Writes the cases of a seed: the edges, and then random ones. How often each choice was made goes to standard error.
pub fn generate(seed: u64, cases: usize) -> io::Result<()> {
    let mut out = BufWriter::with_capacity(1 << 16, io::stdout().lock());
    let (mut tally, mut lines) = (Tally::default(), BTreeMap::new());
    let edges = edges();
    for case in edges.iter().take(cases) {
        count(&mut tally, &mut lines, &write(&mut out, case)?);
    }
    let mut maker = Maker::new(seed);
    for _ in edges.len()..cases {
        let case = maker.random();
        let call = write(&mut out, &case)?;
        count(&mut tally, &mut lines, &call);
        tally.choices(&maker.chosen, call.answer == rust::DONE);
    }
    tally.offered(&maker.offered);
    print(&tally, &lines);
    out.flush()
}
