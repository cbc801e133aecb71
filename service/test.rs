//! test STDIN STDOUT CASES NAMES: calls the library from Rust, and compares with what document 01 says. The first two files are case S and
//! the text that the document prints for it; the others have stored order files with their texts, and what the first of them are. Late
//! claims, of document 02, are compared with a build afresh.
use std::{env, fs, process};

const SLOTS: usize = 512;
const TEXT: usize = 17500;
const MAP: usize = 1537;
const PATTERN: u64 = 0xa5a5_a5a5_a5a5_a5a5;

#[repr(C)]
struct WharfthrumReport {
    number: u64,
    count: u64,
    free: u64,
    usable: u64,
    has_share: u64,
    share: f64,
}

#[repr(C)]
struct WharfthrumLate {
    number: u64,
    count: u64,
}

/// A map's memory: 12,296 bytes that only `build_map` and `claim_late` change.
#[repr(C)]
#[derive(Clone, Copy, PartialEq)]
struct Map([u64; MAP]);

unsafe extern "C" {
    fn wharfthrum_build(file: *const u8, bytes: usize, slots: *mut u64, numbers: usize) -> WharfthrumReport;
    fn wharfthrum_report(file: *const u8, bytes: usize, slots: *mut u64, text: *mut u8) -> usize;
    fn wharfthrum_number(file: *const u8, bytes: usize) -> u64;
    fn wharfthrum_build_map(file: *const u8, bytes: usize, slots: *mut u64, numbers: usize, map: *mut Map) -> WharfthrumReport;
    fn wharfthrum_claim_late(
        map: *mut Map, base: u64, size: u64, kind: u64, slots: *mut u64, numbers: usize, count: usize,
    ) -> WharfthrumLate;
}

/// What a service would write: the calls over slices.
fn build(file: &[u8], slots: &mut [u64]) -> WharfthrumReport {
    unsafe { wharfthrum_build(file.as_ptr(), file.len(), slots.as_mut_ptr(), slots.len()) }
}

fn report(file: &[u8], slots: &mut [u64; 2 * SLOTS], text: &mut [u8; TEXT]) -> usize {
    unsafe { wharfthrum_report(file.as_ptr(), file.len(), slots.as_mut_ptr(), text.as_mut_ptr()) }
}

fn number(file: &[u8]) -> u64 {
    unsafe { wharfthrum_number(file.as_ptr(), file.len()) }
}

fn build_map(file: &[u8], slots: &mut [u64], map: &mut Map) -> WharfthrumReport {
    unsafe { wharfthrum_build_map(file.as_ptr(), file.len(), slots.as_mut_ptr(), slots.len(), map) }
}

/// A claim is base, size and kind; the answer is the number and the count. The map is one that a build filled.
fn claim_late(map: &mut Map, [base, size, kind]: [u64; 3], slots: &mut [u64], count: usize) -> [u64; 2] {
    let late = unsafe { wharfthrum_claim_late(map, base, size, kind, slots.as_mut_ptr(), slots.len(), count) };
    [late.number, late.count]
}

/// A report as plain numbers, the share as its bits.
fn fields(r: WharfthrumReport) -> [u64; 6] {
    [r.number, r.count, r.free, r.usable, r.has_share, r.share.to_bits()]
}

/// An order file with no tree: low and high where there are such.
fn order_under(low: Option<u64>, high: Option<u64>, pairs: [[u64; 2]; 5], list: &[[u64; 3]]) -> Vec<u8> {
    let mut file = b"GBO\x01\x00".to_vec();
    file.push(2 * low.is_some() as u8 + 4 * high.is_some() as u8);
    file.extend((list.len() as u16).to_le_bytes());
    file.extend(low.unwrap_or(0).to_le_bytes());
    file.extend(high.unwrap_or(0).to_le_bytes());
    for number in pairs.iter().flatten() {
        file.extend(number.to_le_bytes());
    }
    file.extend([0; 8]);
    for number in list.iter().flatten() {
        file.extend(number.to_le_bytes());
    }
    file
}

/// The same with no limits.
fn order(pairs: [[u64; 2]; 5], list: &[[u64; 3]]) -> Vec<u8> {
    order_under(None, None, pairs, list)
}

/// The stored order files, each with its text: a frame is a length in 64 bits, the lowest byte first, and as many bytes.
fn stored(bytes: &[u8]) -> Vec<[&[u8]; 2]> {
    let mut parts = Vec::new();
    let mut rest = bytes;
    while let Some((length, behind)) = rest.split_first_chunk() {
        let (part, next) = behind.split_at(u64::from_le_bytes(*length) as usize);
        parts.push(part);
        rest = next;
    }
    parts.chunks_exact(2).map(|pair| [pair[0], pair[1]]).collect()
}

struct Tally {
    passed: u32,
    failed: u32,
}

impl Tally {
    fn expect(&mut self, held: bool, what: &str) {
        if held {
            self.passed += 1;
        } else {
            self.failed += 1;
            println!("failed: {what}");
        }
    }
}

/// The text of a file, if the buffer past it is as it was.
fn text_of(file: &[u8]) -> Option<Vec<u8>> {
    let mut slots = [PATTERN; 2 * SLOTS];
    let mut text = [0xa5; TEXT];
    let n = report(file, &mut slots, &mut text);
    text[n..].iter().all(|byte| *byte == 0xa5).then(|| text[..n].to_vec())
}

/// "low up, high down, missing low 0, missing high 2^64 - 1", on 16 Free pages from 0 with the kernel in the fourth.
fn limits(t: &mut Tally) {
    let cases: [(_, _, &[u64], _); 6] = [
        (None, None, &[0, 0x3000, 0x4000, 0xc000], [16, 15]),
        (Some(0x1001), None, &[0x2000, 0x1000, 0x4000, 0xc000], [14, 13]),
        (None, Some(0x5fff), &[0, 0x3000, 0x4000, 0x1000], [5, 4]),
        (Some(0x1001), Some(0x5fff), &[0x2000, 0x1000, 0x4000, 0x1000], [3, 2]),
        (Some(0x3000), Some(0x4000), &[], [1, 0]),
        (Some(1), Some(0x1fff), &[], [0, 0]),
    ];
    for (low, high, areas, [free, usable]) in cases {
        let file = order_under(low, high, [[0x3000, 0x1000], [0; 2], [0; 2], [0; 2], [0; 2]], &[[0, 0x1_0000, 1]]);
        let share = if free == 0 { 0.0 } else { usable as f64 / free as f64 };
        let mut slots = [PATTERN; 6];
        let said = [0, areas.len() as u64 / 2, free, usable, (free != 0).into(), share.to_bits()];
        t.expect(fields(build(&file, &mut slots)) == said, "limits: the report");
        t.expect(slots[..areas.len()] == *areas, "limits: the areas");
        t.expect(slots[areas.len()..].iter().all(|number| *number == PATTERN), "limits: all past the count is untouched");
    }
}

/// The stored files, by all calls. Of a virtual board there are two, for 64-bit ARM and not, which alone is refused.
fn stored_cases(t: &mut Tally, cases: &[u8], names: &str) {
    let cases = stored(cases);
    for [file, text] in &cases {
        let refused = text.strip_prefix(b"refused ").map_or(0, |rest| u64::from(rest[0] - b'0'));
        t.expect(text_of(file).as_deref() == Some(*text), "a stored case: its text");
        t.expect(number(file) == refused, "a stored case: its number");
        t.expect(build(file, &mut [PATTERN; 2 * SLOTS]).number == refused, "a stored case: its build");
        t.expect(builds_agree(file, 2 * SLOTS), "a stored case: its build with the map");
    }
    let board = names.lines().position(|name| name == "an unreadable ranges of /soc, a virtual board: 8");
    let arm = names.lines().position(|name| name == "the same, for 64-bit ARM: done");
    t.expect(board.is_some_and(|i| cases[i][0][5] == 0 && number(cases[i][0]) == 8), "a virtual board, not ARM");
    t.expect(arm.is_some_and(|i| cases[i][0][5] == 1 && number(cases[i][0]) == 0), "a virtual board, ARM");
}

/// Whether a claim is refused with this number, and leaves every number of the map and of the slots.
fn refuses_late(map: &Map, claim: [u64; 3], slots: &[u64], count: usize, number: u64) -> bool {
    let (mut after, mut left) = (*map, slots.to_vec());
    claim_late(&mut after, claim, &mut left, count) == [number, count as u64] && after == *map && left == slots
}

/// What a claim that is done leaves: the areas that are used, and the lent numbers past them.
fn done_late(map: &Map, claim: [u64; 3], slots: &[u64], count: usize) -> Option<(Vec<u64>, Vec<u64>)> {
    let (mut after, mut left) = (*map, slots.to_vec());
    let [number, used] = claim_late(&mut after, claim, &mut left, count);
    let past = left.split_off(2 * used as usize);
    (number == 0).then_some((left, past))
}

/// Numbers that look thrown, always the same: xorshift.
struct Dice(u64);

impl Dice {
    fn below(&mut self, n: u64) -> u64 {
        self.0 ^= self.0 << 13;
        self.0 ^= self.0 >> 7;
        self.0 ^= self.0 << 17;
        self.0 % n
    }

    /// Of the lowest 64 pages, or of the last 16 below 2^64.
    fn entry(&mut self, kinds: &[u64]) -> [u64; 3] {
        let base = if self.below(4) == 0 { 0_u64.wrapping_sub(1 + self.below(0x1_0000)) } else { self.below(0x4_0000) };
        let base = if self.below(2) == 0 { base & !0xfff } else { base };
        let size = if self.below(8) == 0 { 0 } else { self.below(0x1_0000) };
        [base, size, kinds[self.below(kinds.len() as u64) as usize]]
    }
}

/// Late claims one after the other, each beside a build afresh that has it in its list: the same slots, and the same map, since nothing is
/// registered behind the list.
fn late_as_afresh(t: &mut Tally) {
    let mut dice = Dice(0x5eed);
    for _ in 0..200 {
        let mut list: Vec<[u64; 3]> = (0..8).map(|_| dice.entry(&[1, 1, 1, 2, 3])).collect();
        let (low, high) = ((dice.below(2) == 0).then(|| dice.below(0x8000)), (dice.below(4) == 0).then(|| 0x3_0000 + dice.below(0x1_0000)));
        let mut map = Map([PATTERN; MAP]);
        let mut slots = [PATTERN; 2 * SLOTS];
        let mut count = build_map(&order_under(low, high, [[0; 2]; 5], &list), &mut slots, &mut map).count as usize;
        let mut most = count;
        for _ in 0..12 {
            let claim = dice.entry(&[2, 3, 0x100, 0x101, 0x102]);
            list.push(claim);
            let (mut afresh, mut map_afresh) = ([PATTERN; 2 * SLOTS], Map([PATTERN; MAP]));
            let built = build_map(&order_under(low, high, [[0; 2]; 5], &list), &mut afresh, &mut map_afresh);
            t.expect(claim_late(&mut map, claim, &mut slots, count) == [0, built.count] && built.number == 0, "a late claim: its count");
            count = built.count as usize;
            most = most.max(count);
            t.expect(slots[..2 * count] == afresh[..2 * count], "a late claim: as built afresh");
            t.expect(map == map_afresh, "a late claim: the map as built afresh");
            t.expect(slots[2 * count..2 * most].iter().all(|number| *number == 0), "a late claim: slots out of use are zero");
            t.expect(slots[2 * most..].iter().all(|number| *number == PATTERN), "a late claim: all past them is untouched");
        }
    }
}

/// "Refusals, in order: 1, 13 .., 14 .., 2, 3; all leave map and table unchanged", on case S.
fn late_refusals(t: &mut Tally, s: &[u8]) {
    let mut map = Map([PATTERN; MAP]);
    let mut slots = [PATTERN; 8];
    let count = build_map(s, &mut slots, &mut map).count as usize;
    let (table, page) = (&slots[..6], [0x1000, 0x1000, 3]);
    for size in [0, 0x1000] {
        t.expect(refuses_late(&map, [0x1000, size, 4], table, count + 1, 1), "1 before 14");
        t.expect(refuses_late(&map, [0x1000, size, 0], table, count + 1, 13), "13 before 14: Null");
        t.expect(refuses_late(&map, [0x1000, size, 1], table, count + 1, 13), "13 before 14: Free");
        t.expect(refuses_late(&map, [0x1000, size, 3], table, count + 1, 14), "14: count above the slots");
        t.expect(refuses_late(&map, [0x1000, size, 3], &slots[..7], count + 1, 14), "14: an odd number is no slot");
        t.expect(refuses_late(&map, [0x1000, size, 3], &[], 1, 14), "14: no slots");
        t.expect(refuses_late(&map, [0x1000, size, 3], &[0x1000, 0x1000, 0x2000, 0x1000], 2, 14), "14: areas that touch");
    }
    t.expect(refuses_late(&map, page, table, count, 3), "3: no slot for the second piece");
    t.expect(refuses_late(&map, page, &slots[..7], count, 3), "3: an odd number is no slot");
    let none = done_late(&map, [0x1001, 0, 3], table, count);
    t.expect(none == Some((table.to_vec(), vec![])), "size 0 changes nothing");
    t.expect(done_late(&map, page, &[], 0) == Some((vec![], vec![])), "no slots: done");
    let split = vec![0, 0x1000, 0x2000, 0xf_e000, 0x30_0000, 0x10_0000, 0x40_2000, 0x3f_e000];
    t.expect(done_late(&map, page, &slots, count) == Some((split, vec![])), "a slot for the second piece");

    let free: Vec<[u64; 3]> = (0..512).map(|i| [0x2000 * i, 0x1000, 1]).collect();
    let mut many = [PATTERN; 2 * SLOTS];
    t.expect(build_map(&order([[0; 2]; 5], &free), &mut many, &mut map).count == 512, "a full map: its build");
    t.expect(refuses_late(&map, [0x2000, 0x1000, 3], &many, 512, 2), "2: a full map");
    t.expect(refuses_late(&map, [0x1000, 0x1000, 3], &[0, 0x3000], 1, 2), "2 before 3");
    t.expect(refuses_late(&map, [0x1000, 0x1000, 3], &[0, 0x3000], 2, 14), "14 before 2");
}

/// Tables from elsewhere: 1,000 areas, and one that ends at T.
fn late_elsewhere(t: &mut Tally, s: &[u8]) {
    const T: u64 = 0xffff_ffff_ffff_f000;
    let mut map = Map([PATTERN; MAP]);
    t.expect(build_map(s, &mut [PATTERN; 6], &mut map).number == 0, "S: its map");
    let mut table: Vec<u64> = (0..1000).flat_map(|i| [0x4000 * i, 0x3000]).collect();
    let claim = [0x4000 * 500 + 0x1fff, 1, 0x101];
    t.expect(refuses_late(&map, claim, &table, 1000, 3), "1,000 areas: no slot for one more");
    let mut split = table.clone();
    split.splice(1000..1002, [0x4000 * 500, 0x1000, 0x4000 * 500 + 0x2000, 0x1000]);
    table.extend([PATTERN; 3]);
    t.expect(done_late(&map, claim, &table, 1000) == Some((split, vec![PATTERN])), "1,000 areas: one more");
    let top = [T - 0x3000, 0x3000, PATTERN];
    t.expect(done_late(&map, [T - 1, 1, 2], &top, 1) == Some((vec![T - 0x3000, 0x2000], vec![PATTERN])), "the last page below T");
    t.expect(done_late(&map, [T, 1, 2], &top, 1) == Some((vec![T - 0x3000, 0x3000], vec![PATTERN])), "the page at T, which no area has");
    t.expect(done_late(&map, [0, T, 2], &top, 1) == Some((vec![], vec![0, 0, PATTERN])), "no area is left: zeros");
    t.expect(refuses_late(&map, [T, 1, 2], &[T, 0x1000], 1, 14), "14: an area at T");
}

/// A build with its map answers and leaves what one without does; a refusal leaves the map's memory.
fn builds_agree(file: &[u8], numbers: usize) -> bool {
    let (mut a, mut b, mut map) = (vec![PATTERN; numbers], vec![PATTERN; numbers], Map([PATTERN; MAP]));
    let (plain, with_map) = (fields(build(file, &mut a)), fields(build_map(file, &mut b, &mut map)));
    plain == with_map && a == b && (plain[0] != 0) == (map == Map([PATTERN; MAP]))
}

fn main() {
    let paths: Vec<String> = env::args().skip(1).collect();
    let [stdin, stdout, cases, names] = paths.as_slice() else {
        eprintln!("usage: test STDIN STDOUT CASES NAMES");
        process::exit(2);
    };
    let mut t = Tally { passed: 0, failed: 0 };
    let none = [[0; 2]; 5];
    let (kernel, stack) = ([0x10_0000, 0x20_0000], [0x40_0800, 0x1000]);
    let s = order([kernel, [0; 2], [0; 2], [0; 2], stack], &[[0, 0x80_0000, 1]]);
    t.expect(fs::read(stdin).ok() == Some(s.clone()), "the stored file is case S");

    let done = [0, 3, 2048, 1534, 1, 0x3fe7_f800_0000_0000];
    let areas = [0, 0x10_0000, 0x30_0000, 0x10_0000, 0x40_2000, 0x3f_e000];
    for numbers in [6, 7, 8, 2 * SLOTS] {
        let mut slots = vec![PATTERN; numbers];
        t.expect(fields(build(&s, &mut slots)) == done, "S: its report");
        t.expect(slots[..6] == areas, "S: the areas");
        t.expect(slots[6..].iter().all(|number| *number == PATTERN), "S: all past the count is untouched");
    }
    for numbers in [0, 1, 4, 5] {
        let mut slots = vec![PATTERN; numbers];
        t.expect(fields(build(&s, &mut slots)) == [3, 0, 0, 0, 0, 0], "S: refused in less than 3 slots");
        t.expect(slots.iter().all(|number| *number == PATTERN), "S: a refusal writes nothing");
    }
    t.expect((0..9).all(|numbers| builds_agree(&s, numbers)), "S: the same with its map");
    t.expect(number(&s) == 0, "S: its number");
    t.expect(text_of(&s) == fs::read(stdout).ok(), "S: its text");

    let mut slots = [PATTERN; 2];
    t.expect(fields(build(&[], &mut slots)) == [9, 0, 0, 0, 0, 0], "an empty file");
    t.expect(number(&[]) == 9, "an empty file: its number");
    t.expect(text_of(&[]).as_deref() == Some(b"refused 9\n"), "an empty file: its text");

    let nothing = order(none, &[[0x800, 0x1000, 1]]);
    t.expect(fields(build(&nothing, &mut slots)) == [0; 6], "no page is Free: no share");
    t.expect(text_of(&nothing).as_deref() == Some(b"areas 0\npages 0 0 none\n"), "no page is Free: its text");
    let covered = order([[0, 0x1000], [0; 2], [0; 2], [0; 2], [0; 2]], &[[0, 0x1000, 1]]);
    t.expect(fields(build(&covered, &mut slots)) == [0, 0, 1, 0, 1, 0], "no page is usable: positive zero");
    let unknown = order(none, &[[0, 0, 4]]);
    t.expect(number(&unknown) == 1, "no such kind");
    t.expect(slots == [PATTERN; 2], "none of these writes");

    limits(&mut t);
    late_as_afresh(&mut t);
    late_refusals(&mut t, &s);
    late_elsewhere(&mut t, &s);
    match (fs::read(cases), fs::read_to_string(names)) {
        (Ok(cases), Ok(names)) => stored_cases(&mut t, &cases, &names),
        _ => t.expect(false, "the stored cases"),
    }

    println!("Rust: {} passed, {} failed", t.passed, t.failed);
    process::exit((t.failed != 0).into());
}
