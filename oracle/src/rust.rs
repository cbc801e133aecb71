//! Calls of the unchanged Rust, with its panics turned into the numbers of document 01.
use crate::judge::judge;
use crate::memory::{AREA_COUNT, AREAS};
use crate::startup::KernelArgs;
use crate::startup::original::{held, hold, init, kind_of, register_list, register_memory_region, register_sources};
use rmm::{MemoryArea, PhysicalAddress};
use std::panic::{AssertUnwindSafe, catch_unwind, set_hook};
use std::sync::Mutex;
use std::sync::atomic::{AtomicBool, Ordering::Relaxed};
#[cfg(feature = "bench")]
use std::time::{Duration, Instant};

pub const DONE: u64 = 0;
pub const UNKNOWN_KIND: u64 = 1;
pub const MAP_FULL: u64 = 2;
pub const TOO_MANY_AREAS: u64 = 3;
pub const UNREADABLE_REG: u64 = 7;
pub const UNREADABLE_RANGES: u64 = 8;

/// Base, size and the number of the kind.
pub type Claim = [u64; 3];
/// Start, end and the number of the kind.
pub type Entry = [u64; 3];

/// A list of no bytes still has a place.
pub const NO_LIST: u64 = 8;

/// Where a call of the Rust stopped.
#[derive(Debug, PartialEq)]
pub enum Stop {
    MapFull,
    NoSlot,
    /// `init` asked for a mapper: the areas stand.
    Mapper,
    /// The Rust unwrapped what the stand-in for `fdt` cannot read.
    UnreadableReg,
    UnreadableRanges,
}

static CALLING: AtomicBool = AtomicBool::new(false);
static PANIC: Mutex<String> = Mutex::new(String::new());

/// Keeps what a panic of the Rust says, and still prints those of the harness.
pub fn listen() {
    set_hook(Box::new(|info| {
        if CALLING.load(Relaxed) {
            *PANIC.lock().unwrap() = info.to_string();
        } else {
            eprintln!("{info}");
        }
    }));
}

/// Calls the Rust. A panic that is none of the known ones ends the harness.
fn called(call: impl FnOnce()) -> Option<Stop> {
    called_with(&[], call)
}

/// The same, with a tree whose bytes are shown at such an end.
fn called_with(tree: &[u8], call: impl FnOnce()) -> Option<Stop> {
    CALLING.store(true, Relaxed);
    let result = catch_unwind(AssertUnwindSafe(call));
    CALLING.store(false, Relaxed);
    if result.is_ok() {
        return None;
    }
    let panic = PANIC.lock().unwrap().clone();
    let known = [
        ("memory.rs:", "Early memory map overflow after combining adjacent regions!", Stop::MapFull),
        ("memory.rs:", "index out of bounds: the len is ", Stop::NoSlot),
        ("memory.rs:", "failed to create Mapper", Stop::Mapper),
        ("dtb/mod.rs:", "on an `Err` value: UnreadableReg", Stop::UnreadableReg),
        ("dtb/mod.rs:", "on an `Err` value: UnreadableRanges", Stop::UnreadableRanges),
    ];
    for (file, message, stop) in known {
        if panic.contains(&format!("original/{file}")) && panic.contains(message) {
            return Some(stop);
        }
    }
    eprintln!("the Rust panicked otherwise: {panic}");
    for line in tree.chunks(32) {
        eprintln!("{}", line.iter().map(|byte| format!("{byte:02x}")).collect::<String>());
    }
    std::process::abort();
}

/// One registration, and nothing besides.
pub fn register_only([base, size, kind]: Claim) -> u64 {
    // The Rust's enum cannot hold another number, so the harness judges it.
    let Some(kind) = kind_of(kind) else {
        return UNKNOWN_KIND;
    };
    match called(|| register_memory_region(base as usize, size as usize, kind)) {
        None => DONE,
        Some(Stop::MapFull) => MAP_FULL,
        Some(stop) => unreachable!("{stop:?}"),
    }
}

/// One registration, which must leave the map alone where it is refused.
pub fn register(claim: Claim) -> u64 {
    let before = held();
    let answer = register_only(claim);
    assert!(answer == DONE || held() == before, "a refused registration changed the map");
    answer
}

/// One bootloader list with `tail` bytes after its last entry. A refused list leaves the map as it was: the Rust
/// stops in the midst of it, and the harness puts the map back, as document 01 has it.
pub fn register_all(list: &[Claim], tail: usize) -> u64 {
    if list.iter().any(|claim| kind_of(claim[2]).is_none()) {
        return UNKNOWN_KIND;
    }
    let before = held();
    let mut words = list.concat();
    // Of no kind, so that the Rust goes astray if it reads them.
    words.extend([u64::MAX; 3]);
    match called(|| register_list(&words, 24 * list.len() + tail)) {
        None => {
            let after = held();
            hold(&before);
            assert!(list.iter().all(|claim| register(*claim) == DONE));
            assert_eq!(held(), after, "a list and its single registrations differ");
            DONE
        }
        Some(Stop::MapFull) => {
            hold(&before);
            MAP_FULL
        }
        Some(stop) => unreachable!("{stop:?}"),
    }
}

/// Whether the build of the kernel is one for 64-bit ARM.
static ARM: AtomicBool = AtomicBool::new(false);
/// Whether a claim of the tree goes on to the map.
static REGISTERING: AtomicBool = AtomicBool::new(false);
static HEARD: Mutex<Vec<Heard>> = Mutex::new(Vec::new());

/// A claim, and the line of dtb/mod.rs that makes it.
pub type Heard = (Claim, u32);

pub fn is_arm() -> bool {
    ARM.load(Relaxed)
}

/// Whether claims of a tree are kept: they are not where the Rust is timed.
static LISTENING: AtomicBool = AtomicBool::new(true);

/// Keeps a claim of the tree, one of size 0 too, and answers whether it is to be registered.
pub fn hear(claim: Claim, line: u32) -> bool {
    if !LISTENING.load(Relaxed) {
        return true;
    }
    HEARD.lock().unwrap().push((claim, line));
    REGISTERING.load(Relaxed)
}

/// startup/mod.rs hands a tree over in whole words, and loses the bytes of a last one that is not whole. Here zeros fill
/// it, so that nothing is lost.
pub fn whole_words(tree: &[u8]) -> Vec<u32> {
    tree.chunks(4)
        .map(|chunk| {
            let mut word = [0; 4];
            word[..chunk.len()].copy_from_slice(chunk);
            u32::from_ne_bytes(word)
        })
        .collect()
}

/// Has a call of the Rust make the claims of a tree: where it stopped, and the claims up to there.
pub fn hearing(arm: bool, registering: bool, call: impl FnOnce() -> Option<Stop>) -> (Option<Stop>, Vec<Heard>) {
    ARM.store(arm, Relaxed);
    REGISTERING.store(registering, Relaxed);
    let stop = call();
    (stop, std::mem::take(&mut *HEARD.lock().unwrap()))
}

/// Words that the Rust wants for good, and is done with when the call is.
pub fn lent(words: &[u32]) -> &'static [u32] {
    unsafe { std::slice::from_raw_parts(words.as_ptr(), words.len()) }
}

/// The kernel's sources with this tree and nothing else in them.
fn hear_tree(tree: &[u8], arm: bool, registering: bool) -> (Option<Stop>, Vec<Heard>) {
    let words = whole_words(tree);
    let args = KernelArgs { areas_base: NO_LIST, tree: lent(&words), ..KernelArgs::default() };
    hearing(arm, registering, || called_with(tree, || register_sources(&args)))
}

pub struct TreeCall {
    pub answer: u64,
    /// In order. Of a full map: up to and with the one that was refused.
    pub heard: Vec<Heard>,
}

/// The claims of a tree, heard with none of them registered, or the number by which the tree itself is refused. In
/// the Rust a full map can come before an unreadable property. In document 01 it cannot.
pub fn tree_claims(tree: &[u8], arm: bool) -> Result<Vec<Heard>, u64> {
    if !tree.is_empty() {
        judge(tree)?;
    }
    let before = held();
    let (stop, all) = hear_tree(tree, arm, false);
    assert_eq!(held(), before, "a claim was registered that was only to be heard");
    match stop {
        None => Ok(all),
        Some(Stop::UnreadableReg) => Err(UNREADABLE_REG),
        Some(Stop::UnreadableRanges) => Err(UNREADABLE_RANGES),
        stop => unreachable!("{stop:?}"),
    }
}

/// A tree's claims on the map as it stands. A refused tree leaves the map as it was.
pub fn register_tree(tree: &[u8], arm: bool) -> TreeCall {
    let all = match tree_claims(tree, arm) {
        Ok(all) => all,
        Err(answer) => return TreeCall { answer, heard: Vec::new() },
    };
    let before = held();
    let (stop, heard) = hear_tree(tree, arm, true);
    assert!(all.starts_with(&heard), "the claims differ from one call to the next");
    let after = held();
    hold(&before);
    let refusal = heard.iter().position(|(claim, _)| register(*claim) != DONE);
    match stop {
        None => {
            assert!(heard.len() == all.len() && refusal.is_none());
            assert_eq!(held(), after, "a tree and its single registrations differ");
            TreeCall { answer: DONE, heard }
        }
        Some(Stop::MapFull) => {
            assert_eq!(refusal.map(|i| i + 1), Some(heard.len()), "a single registration is refused elsewhere");
            hold(&before);
            TreeCall { answer: MAP_FULL, heard }
        }
        stop => unreachable!("{stop:?}"),
    }
}

/// Of each node in document order, the root first: where the first entry of its `reg` is translated to, and the number
/// of nodes tried; zeros where there is no address. None of a tree that cannot be opened.
pub fn translations(tree: &[u8]) -> Vec<[u64; 2]> {
    if tree.is_empty() || judge(tree).is_err() {
        return Vec::new();
    }
    let words = whole_words(tree);
    let args = KernelArgs { tree: lent(&words), ..KernelArgs::default() };
    let mut all = Vec::new();
    let stop = called_with(tree, || {
        let (tree, _) = args.dtb().expect("a tree");
        all = crate::dtb::translations(&tree);
    });
    assert_eq!(stop, None);
    let is_place = |(place, found): (usize, &Option<(usize, usize)>)| found.is_none_or(|(_, tried)| tried == place);
    assert!(all.iter().enumerate().all(is_place), "the Rust tries other nodes than those up to the target");
    all.into_iter().map(|found| found.map_or([0, 0], |(address, tried)| [address as u64, tried as u64])).collect()
}

/// How long the Rust takes to open a tree, handed over in whole words, and to register its claims, with nobody listening.
#[cfg(feature = "bench")]
pub fn time_tree(words: &'static [u32]) -> Duration {
    let args = KernelArgs { areas_base: NO_LIST, tree: words, ..KernelArgs::default() };
    unheard(|| {
        let start = Instant::now();
        register_sources(&args);
        start.elapsed()
    })
}

/// A call of the Rust, built for no ARM, with nobody listening to the claims of a tree.
#[cfg(feature = "bench")]
pub fn unheard<A>(call: impl FnOnce() -> A) -> A {
    ARM.store(false, Relaxed);
    LISTENING.store(false, Relaxed);
    let answer = call();
    LISTENING.store(true, Relaxed);
    answer
}

/// Number `i` of a lent slice before the build.
fn untouched(i: usize) -> u64 {
    0xa5a5_a5a5_a5a5_0000 + i as u64
}

/// The Rust's `init` on the map as it stands, into these areas.
pub fn init_into(areas: &mut [MemoryArea], args: &KernelArgs, low: Option<u64>, high: Option<u64>) -> Option<Stop> {
    AREAS.lend(areas);
    let stop = called_with(args.tree_bytes(), || {
        unsafe { init(args, low.map(|x| x as usize), high.map(|x| x as usize)) };
    });
    AREAS.lend(&mut []);
    stop
}

/// No source of the kernel's own: every pair is empty.
fn no_sources() -> KernelArgs {
    KernelArgs { areas_base: NO_LIST, ..KernelArgs::default() }
}

pub struct Build {
    pub answer: u64,
    pub count: u64,
    pub numbers: Vec<u64>,
}

/// The areas of the map as it stands, into a lent slice of `len` numbers.
pub fn build(low: Option<u64>, high: Option<u64>, len: usize) -> Build {
    let before = held();
    let mut numbers: Vec<u64> = (0..len).map(untouched).collect();
    let mut areas: Vec<MemoryArea> = numbers
        .chunks_exact(2)
        .map(|pair| MemoryArea { base: PhysicalAddress::new(pair[0] as usize), size: pair[1] as usize })
        .collect();
    let stop = init_into(&mut areas, &no_sources(), low, high);
    assert_eq!(held(), before, "a build changed the map");
    match stop {
        Some(Stop::Mapper) => {
            for (pair, area) in numbers.chunks_exact_mut(2).zip(&areas) {
                pair[0] = area.base.data() as u64;
                pair[1] = area.size as u64;
            }
            let count = unsafe { AREA_COUNT.get().read() }.into();
            Build { answer: DONE, count, numbers }
        }
        // The Rust has written some areas by then. Document 01 wants none, so the slice is given as it was.
        Some(Stop::NoSlot) => Build { answer: TOO_MANY_AREAS, count: 0, numbers },
        stop => unreachable!("{stop:?}"),
    }
}

#[cfg(feature = "bench")]
static ASKED: Mutex<Option<Instant>> = Mutex::new(None);

/// How long a build from these sources takes until `init` asks for a mapper, and how many areas stand then.
#[cfg(feature = "bench")]
pub fn time_init(args: &KernelArgs, slots: usize) -> (Duration, usize) {
    unsafe {
        rmm::ASKED = || {
            let now = Instant::now();
            *ASKED.lock().unwrap() = Some(now);
        };
    }
    let mut areas = vec![MemoryArea { base: PhysicalAddress::new(0), size: 0 }; slots];
    let start = Instant::now();
    assert_eq!(init_into(&mut areas, args, None, None), Some(Stop::Mapper));
    let end = ASKED.lock().unwrap().take().expect("a time");
    (end - start, unsafe { AREA_COUNT.get().read() }.into())
}

/// The same of the map as it stands, with no further source.
#[cfg(feature = "bench")]
pub fn time_build(slots: usize) -> (Duration, usize) {
    time_init(&no_sources(), slots)
}
