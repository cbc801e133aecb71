//! A late claim for `oracle bench`: our call that edits the finished table, beside our build of the areas afresh from the
//! map that has the claim.
use crate::bench::{Lent, Work, bench_build, lent, map_of, timed};
use crate::cases::{FREE, PAGE, RESERVED};
use crate::rust::{Claim, Entry};

unsafe extern "C" {
    fn bench_late(
        entries: *const Entry,
        size: usize,
        base: u64,
        kind: u64,
        slots: *mut u64,
        len: usize,
        count: usize,
    ) -> usize;
}

fn afresh(map: &Lent, slots: &mut [u64; 1024]) -> usize {
    let Lent(entries, size) = map;
    unsafe { bench_build(entries.as_ptr(), *size, slots.as_mut_ptr(), slots.len()) }
}

fn late(map: &Lent, base: u64, slots: &mut [u64; 1024], count: usize) -> usize {
    let Lent(entries, size) = map;
    unsafe { bench_late(entries.as_ptr(), *size, base, RESERVED, slots.as_mut_ptr(), slots.len(), count) }
}

/// One Free entry cut into so many areas by Reserved pages: the first of so many pages, the others of one.
fn cut(areas: u64, first: u64) -> Vec<Claim> {
    let whole = [0, (first + 2 * (areas - 1)) * PAGE, FREE];
    [whole].into_iter().chain((1..areas).map(|i| [(first + 2 * i - 2) * PAGE, PAGE, RESERVED])).collect()
}

/// The same areas, a Free entry each.
fn apart(areas: u64, first: u64) -> Vec<Claim> {
    let rest = (1..areas).map(|i| [(first + 2 * i - 1) * PAGE, PAGE, FREE]);
    [[0, first * PAGE, FREE]].into_iter().chain(rest).collect()
}

/// Page `page` is claimed late. Both must come to the same slots before either is timed.
fn work(name: String, claims: &[Claim], page: u64) -> Work {
    let base = page * PAGE;
    let map = lent(&map_of(claims));
    let with = lent(&map_of(&[claims, &[[base, PAGE, RESERVED]]].concat()));
    let mut table = [0; 1024];
    let count = afresh(&map, &mut table);
    let (mut left, mut built) = (table, [0; 1024]);
    assert_eq!(late(&map, base, &mut left, count), afresh(&with, &mut built), "{name}");
    assert_eq!(left, built, "{name}");
    Work {
        name: name.leak(),
        beside: Box::new(move || {
            let mut slots = [0; 1024];
            timed(|| afresh(&with, &mut slots))
        }),
        ours: Box::new(move || {
            let mut slots = table;
            timed(|| late(&map, base, &mut slots, count))
        }),
    }
}

pub fn works() -> Vec<Work> {
    let mut all = Vec::new();
    for areas in [1, 50, 512] {
        // a page above all areas but the last that is in none: it is Reserved already, or past the end
        let beyond = if areas == 1 { 2 } else { 2 * areas - 3 };
        all.push(work(format!("table of {areas}: none touched"), &cut(areas, 1), beyond));
        all.push(work(format!("table of {areas}: the first taken away"), &cut(areas, 1), 0));
        // a map of 512 entries has no slot for a page that splits an area
        let areas = areas.min(511);
        all.push(work(format!("table of {areas}: the first split in two"), &cut(areas, 3), 1));
    }
    all.push(work("table of 511, each a Free entry: none touched".into(), &apart(511, 3), 1024));
    all.push(work("table of 511, each a Free entry: the first split".into(), &apart(511, 3), 1));
    all
}
