//! Times our compiled crates against the unchanged Rust, in one process and in alternating rounds.
use crate::bench_late;
use crate::bench_whole;
use crate::blob::{Blocks, Node, Order};
use crate::rust::{self, Claim, Entry};
use crate::startup::original::{held, hold, kind_of, register_list, register_memory_region};
use std::hint::black_box;
use std::time::{Duration, Instant};

const PAGE: u64 = 4096;
const FREE: u64 = 1;
const RESERVED: u64 = 3;
const ROUNDS: usize = 301;

unsafe extern "C" {
    fn bench_list(list: *const u8, bytes: usize) -> usize;
    fn bench_register(entries: *const Entry, size: usize, base: u64, kind: u64) -> usize;
    fn bench_claims(tree: *const u8, bytes: usize, arm: bool) -> usize;
    pub fn bench_build(entries: *const Entry, size: usize, slots: *mut u64, len: usize) -> usize;
}

/// The same work twice, ours and what it is timed beside: each answers what it took, and a count that must be equal.
pub struct Work {
    pub name: &'static str,
    pub beside: Box<dyn Fn() -> (Duration, usize)>,
    pub ours: Box<dyn Fn() -> (Duration, usize)>,
}

pub fn timed(call: impl FnOnce() -> usize) -> (Duration, usize) {
    let start = Instant::now();
    let count = black_box(call());
    (start.elapsed(), count)
}

pub fn map_of(claims: &[Claim]) -> Vec<Entry> {
    hold(&[]);
    assert_eq!(rust::register_all(claims, 0), rust::DONE);
    held()
}

/// A map in the form that ours takes: its entries, and how many of them are held.
pub struct Lent(pub [Entry; 512], pub usize);

pub fn lent(map: &[Entry]) -> Lent {
    let mut all = Lent([[0; 3]; 512], map.len());
    all.0[..map.len()].copy_from_slice(map);
    all
}

fn list(name: &'static str, claims: &[Claim]) -> Work {
    let words = claims.concat();
    let same = words.clone();
    Work {
        name,
        beside: Box::new(move || {
            hold(&[]);
            let (took, _) = timed(|| {
                register_list(&words, 8 * words.len());
                0
            });
            (took, held().len())
        }),
        ours: Box::new(move || timed(|| unsafe { bench_list(same.as_ptr().cast(), 8 * same.len()) })),
    }
}

/// One registration of a page in a full map, which is done or refused.
fn single(name: &'static str, claims: &[Claim], base: u64, kind: u64, done: bool) -> Work {
    let map = map_of(claims);
    let Lent(entries, size) = lent(&map);
    let known = kind_of(kind).expect("a kind");
    Work {
        name,
        beside: Box::new(move || {
            hold(&map);
            let (took, _) = timed(|| {
                if done {
                    register_memory_region(base as usize, PAGE as usize, known);
                } else {
                    assert_eq!(rust::register_only([base, PAGE, kind]), rust::MAP_FULL);
                }
                0
            });
            (took, held().len())
        }),
        ours: Box::new(move || timed(|| unsafe { bench_register(entries.as_ptr(), size, base, kind) })),
    }
}

fn build(name: &'static str, claims: &[Claim]) -> Work {
    let map = map_of(claims);
    let Lent(entries, size) = lent(&map);
    Work {
        name,
        beside: Box::new(move || {
            hold(&map);
            rust::time_build(512)
        }),
        ours: Box::new(move || {
            let mut slots = [0; 1024];
            timed(|| unsafe { bench_build(entries.as_ptr(), size, slots.as_mut_ptr(), slots.len()) })
        }),
    }
}

pub fn cells(numbers: &[u32]) -> Vec<u8> {
    numbers.iter().flat_map(|number| number.to_be_bytes()).collect()
}

/// A node that states one cell for addresses and one for sizes.
fn bus(name: &str, ranges: &[u32]) -> Node {
    Node::new(name).with("#address-cells", cells(&[1])).with("#size-cells", cells(&[1])).with("ranges", cells(ranges))
}

fn device(at: u32) -> Node {
    Node::new(&format!("device@{at:x}"))
        .with("compatible", "vendor,device\0")
        .with("reg", cells(&[at, 0x1000]))
        .with("interrupts", cells(&[0, at >> 12, 4]))
        .with("status", "okay\0")
}

/// A board of so many nodes: ten on the way to them, one device in sixteen right below /soc, and the others on four
/// buses in it, of which the last has the console at its end. Devices stand two pages apart, 500 of them in turn.
pub fn board(nodes: u32) -> Vec<u8> {
    let devices = nodes - 10;
    let at = |i: u32| 0x1_0000 + i % 500 * 0x2000;
    let (direct, nested): (Vec<u32>, Vec<u32>) = (0..devices).partition(|i| i % 16 == 0);
    let buses = nested
        .chunks(nested.len().div_ceil(4))
        .enumerate()
        .map(|(i, on)| bus(&format!("bus@{i}"), &[0, 0, 0x4000_0000]).holding(on.iter().map(|i| device(at(*i)))));
    let soc =
        bus("soc", &[0, 0x4000_0000, 0x4000_0000]).holding(direct.into_iter().map(|i| device(at(i))).chain(buses));
    let last = nested.last().copied().unwrap_or(0);
    let reserved = bus("reserved-memory", &[])
        .holding([Node::new("firmware@80000000").with("reg", cells(&[0x8000_0000, 0x10_0000]))]);
    let console = format!("/soc/bus@3/device@{:x}:115200n8\0", at(last));
    let root = Node::new("")
        .with("#address-cells", cells(&[1]))
        .with("#size-cells", cells(&[1]))
        .with("model", "some board\0")
        .holding([
            Node::new("chosen").with("stdout-path", console),
            reserved,
            soc,
            Node::new("interrupt-controller@f0000000")
                .with("interrupt-controller", "")
                .with("reg", cells(&[0xf000_0000, 0x1000, 0xf001_0000, 0x1000])),
        ]);
    Blocks::plain(&[[0x9000_0000, 0x1_0000]], &root).lay_out(Order::Usual)
}

fn tree(name: &'static str, nodes: u32) -> Work {
    let bytes = board(nodes);
    let words: &'static [u32] = rust::whole_words(&bytes).leak();
    Work {
        name,
        beside: Box::new(move || {
            hold(&[]);
            let took = rust::time_tree(words);
            (took, held().len())
        }),
        ours: Box::new(move || timed(|| unsafe { bench_claims(bytes.as_ptr(), bytes.len(), false) })),
    }
}

fn works() -> Vec<Work> {
    let page = |i: u64, kind: u64| [i * PAGE, PAGE, kind];
    let separate: Vec<Claim> = (0..512).map(|i| page(2 * i, FREE)).collect();
    let whole = [0, 1024 * PAGE, FREE];
    let holes: Vec<Claim> = (0..511).map(|i| page(2 * i + 1, RESERVED)).collect();
    let ascending: Vec<Claim> = [&[whole], &holes[..]].concat();
    let descending: Vec<Claim> = [whole].into_iter().chain(holes.into_iter().rev()).collect();
    let halved: Vec<Claim> =
        (0..256).flat_map(|i| [[4 * i * PAGE, 3 * PAGE, FREE], page(4 * i + 1, RESERVED)]).collect();
    vec![
        list("list of 512 separate entries, from empty", &separate),
        single("a bridging registration, from a full map", &separate, PAGE, FREE, true),
        single("a refused registration, in a full map (a)", &separate, 2000 * PAGE, RESERVED, false),
        build("build: 512 Free", &separate),
        build("build: 1 Free cut by 511, ascending", &ascending),
        build("build: 1 Free cut by 511, descending", &descending),
        build("build: 256 Free, each cut by one of 256", &halved),
        tree("tree of 50 nodes, from empty (b)", 50),
        tree("tree of 500 nodes, from empty (b)", 500),
        tree("tree of 4,000 nodes, from empty (b)", 4000),
    ]
}

fn median(mut times: Vec<Duration>) -> f64 {
    times.sort();
    times[times.len() / 2].as_nanos() as f64
}

/// A row for each, its ratio with so many decimals.
fn print(works: impl IntoIterator<Item = Work>, decimals: usize) {
    for work in works {
        let (mut beside, mut ours) = (Vec::new(), Vec::new());
        for _ in 0..ROUNDS {
            let (took, count) = (work.beside)();
            beside.push(took);
            let (took, same) = (work.ours)();
            ours.push(took);
            assert_eq!(count, same, "{}", work.name);
        }
        let (beside, ours) = (median(beside), median(ours));
        println!("{:<52} {beside:>10.0} {ours:>10.0} {:>7.decimals$}", work.name, ours / beside);
    }
}

pub fn run() {
    println!("{:<52} {:>10} {:>10} {:>7}", "nanoseconds a call, medians of 301 rounds", "Rust", "ours", "ratio");
    print(works().into_iter().chain(bench_whole::works()), 2);
    println!("(b) the Rust over the stand-in for the crate fdt, which opens and does not judge");
    println!("(a) where the Rust panics: its time has the unwinding, and catching it, in it");
    println!("(c) ours is handed the order file, which it reads and judges, and makes the page sheet too");
    println!("{:<52} {:>10} {:>10} {:>7}", "a late claim of one page, ours beside ours", "afresh", "late", "ratio");
    print(bench_late::works(), 4);
}
