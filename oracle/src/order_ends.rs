//! Names for what comes of an order file, so that a run can tell how often each came up.
use crate::page_sets::Sheet;

const HELD: [&str; 4] = ["held: none", "held: 1 to 510", "held: 511", "held: 512"];
const AREAS: [&str; 4] = ["areas: none", "areas: 1 to 510", "areas: 511", "areas: 512"];
const SHARE: [&str; 4] = ["share: none", "share: zero", "share: between zero and one", "share: one"];
const FULL: [&str; 3] = ["full: in the list", "full: in the tree", "full: in the pairs"];

pub fn all() -> impl Iterator<Item = &'static &'static str> {
    HELD.iter().chain(&AREAS).chain(&SHARE).chain(&FULL)
}

fn by_count(names: [&'static str; 4], count: usize) -> &'static str {
    names[[1, 511, 512].iter().filter(|bound| **bound <= count).count()]
}

/// How many entries are held in the end.
pub fn held(count: usize) -> &'static str {
    by_count(HELD, count)
}

pub fn areas(count: usize) -> &'static str {
    by_count(AREAS, count)
}

pub fn share(sheet: &Sheet) -> &'static str {
    match (sheet.free, sheet.usable) {
        (0, _) => SHARE[0],
        (_, 0) => SHARE[1],
        (free, usable) if usable < free => SHARE[2],
        _ => SHARE[3],
    }
}

/// Which source has the registration that finds the map full, after so many of the list and so many of the tree.
pub fn full(at: usize, list: usize, tree: usize) -> &'static str {
    match at {
        _ if at < list => FULL[0],
        _ if at < list + tree => FULL[1],
        _ => FULL[2],
    }
}
