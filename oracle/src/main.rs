//! The unchanged Rust of the boot memory map as an oracle. `oracle gen SEED COUNT` writes COUNT cases with the
//! Rust's answers to standard output, `oracle claims SEED COUNT` the same of trees, and `oracle orders SEED COUNT` of
//! whole order files, and `oracle late SEED COUNT` of such with late claims behind them; README.md has their layouts.
//! `oracle orders-through PROGRAM SEED COUNT` and `oracle late-through PROGRAM SEED COUNT` run a program on each, and
//! compare what it prints. `oracle bench`, where it is built with that feature, times our crates against the Rust.
#![feature(sync_unsafe_cell, int_roundings)]

/// The Rust's log lines are type checked and not written.
macro_rules! debug {
    ($($text:tt)*) => { if false { let _ = format_args!($($text)*); } };
}
macro_rules! trace { ($($text:tt)*) => { debug!($($text)*) }; }
macro_rules! info { ($($text:tt)*) => { debug!($($text)*) }; }
macro_rules! warn { ($($text:tt)*) => { debug!($($text)*) }; }
macro_rules! error { ($($text:tt)*) => { debug!($($text)*) }; }

/// What the kernel's build decides, decided for each case: whether it is for 64-bit ARM. The build takes trees, and
/// whether there is one is for `KernelArgs::dtb`.
macro_rules! cfg {
    (target_arch = "aarch64") => { crate::rust::is_arm() };
    (dtb) => { true };
    ($($other:tt)*) => { ::core::cfg!($($other)*) };
}

#[cfg(feature = "bench")]
mod bench;
#[cfg(feature = "bench")]
mod bench_late;
#[cfg(feature = "bench")]
mod bench_whole;
mod blob;
mod cases;
mod choices;
mod claims;
mod frames;
mod judge;
mod late;
mod late_cases;
mod late_edges;
mod order_cases;
mod order_edges;
mod order_ends;
mod order_file;
mod order_layout;
mod order_lists;
mod orders;
mod page_sets;
mod rng;
mod rust;
#[allow(dead_code)]
mod stubs;
mod tally;
mod through;
mod tree_cases;
mod tree_edges;
mod trees;
mod values;
mod whole;

use cases::Case;
use std::io::{self, BufWriter, Write};
// memory.rs and dtb/mod.rs name these from the crate's root.
use stubs::{arch, devices, dtb, kernel_executable_offsets, memory, startup};

/// The numbers of one case that a reader of the stream has room for.
const LARGEST: usize = 16_000;

fn put_map(out: &mut Vec<u64>, map: &[rust::Entry]) {
    out.push(map.len() as u64);
    out.extend(map.as_flattened());
}

/// A case and what the Rust answers, as the words of the stream.
fn words(case: &Case) -> Vec<u64> {
    let claims = &case.claims;
    let (first, list) = claims.split_at(case.first);
    let mut out = vec![claims.len() as u64, first.len() as u64, case.tail as u64];
    for limit in [case.low, case.high] {
        out.extend([limit.is_some().into(), limit.unwrap_or(0)]);
    }
    out.push(case.len as u64);
    out.extend(claims.as_flattened());

    startup::original::hold(&[]);
    out.extend(first.iter().map(|claim| rust::register(*claim)));
    let after_first = startup::original::held();
    out.extend(list.iter().map(|claim| rust::register(*claim)));
    let after_all = startup::original::held();

    startup::original::hold(&after_first);
    out.push(rust::register_all(list, case.tail));
    let after_list = startup::original::held();
    put_map(&mut out, &after_first);
    put_map(&mut out, &after_list);
    put_map(&mut out, &after_all);

    startup::original::hold(&after_all);
    let build = rust::build(case.low, case.high, case.len);
    out.extend([build.answer, build.count]);
    out.extend(build.numbers);
    for listing in startup::original::listings() {
        put_map(&mut out, &listing);
    }
    assert!(out.len() <= LARGEST, "a case of {} numbers", out.len());
    out
}

fn generate(seed: u64, count: usize) -> io::Result<()> {
    let mut out = BufWriter::with_capacity(1 << 16, io::stdout().lock());
    for case in cases::cases(seed).take(count) {
        for word in words(&case) {
            out.write_all(&word.to_le_bytes())?;
        }
    }
    out.flush()
}

fn main() -> io::Result<()> {
    rust::listen();
    let args: Vec<String> = std::env::args().skip(1).collect();
    let args: Vec<&str> = args.iter().map(String::as_str).collect();
    let number = |text: &str| text.parse::<u64>().unwrap_or_else(|_| usage());
    match args[..] {
        ["gen", seed, count] => generate(number(seed), number(count) as usize),
        ["claims", seed, count] => claims::generate(number(seed), number(count) as usize),
        ["orders", seed, count] => frames::generate(orders::stream, number(seed), number(count) as usize),
        ["orders-names"] => frames::names(&order_edges::edges()),
        ["orders-through", program, seed, count] => through(program, orders::stream, number(seed), number(count)),
        ["late", seed, count] => frames::generate(late::stream, number(seed), number(count) as usize),
        ["late-names"] => frames::names(&late_edges::edges()),
        ["late-through", program, seed, count] => through(program, late::stream, number(seed), number(count)),
        #[cfg(feature = "bench")]
        ["bench"] => Ok(bench::run()),
        _ => usage(),
    }
}

/// Runs a program on the cases of a stream, and ends with status 1 where it gets one wrong.
fn through(program: &str, stream: frames::Stream, seed: u64, count: u64) -> io::Result<()> {
    let same = through::run(program, stream, seed, count as usize)?;
    std::process::exit(i32::from(!same))
}

fn usage() -> ! {
    eprintln!(
        "oracle gen SEED COUNT\noracle claims SEED COUNT\noracle orders SEED COUNT\noracle orders-names\n\
         oracle orders-through PROGRAM SEED COUNT\noracle late SEED COUNT\noracle late-names\n\
         oracle late-through PROGRAM SEED COUNT"
    );
    std::process::exit(2);
}
