//! The page sheet from the registrations alone: plain sets of pages, each as sorted runs of pages that do not touch.
//! It knows nothing of a map's entries, nor of the Rust's carving.
use crate::cases::{FREE, NULL, PAGE, T};
use crate::rust::Claim;

/// The first page of a run, and the one behind its last.
type Run = [u64; 2];

fn down(address: u64) -> u64 {
    address / PAGE
}

fn up(address: u64) -> u64 {
    address.div_ceil(PAGE).min(T / PAGE)
}

/// The pages of a registration: for Free those that lie in it whole, else those that it meets.
fn pages([base, size, kind]: Claim) -> Run {
    let end = base.saturating_add(size);
    match kind {
        FREE => [up(base), down(end)],
        _ if kind == NULL || size == 0 => [0, 0],
        _ => [down(base), up(end)],
    }
}

/// The set of all pages of some runs.
fn union(mut runs: Vec<Run>) -> Vec<Run> {
    runs.retain(|[start, end]| start < end);
    runs.sort();
    let mut set: Vec<Run> = Vec::new();
    for [start, end] in runs {
        match set.last_mut() {
            Some(last) if start <= last[1] => last[1] = last[1].max(end),
            _ => set.push([start, end]),
        }
    }
    set
}

/// The pages of a set that are not in another.
fn without(set: &[Run], other: &[Run]) -> Vec<Run> {
    let mut rest = Vec::new();
    for [mut start, end] in set.iter().copied() {
        for [from, to] in other.iter().copied() {
            if from < end && start < to {
                rest.push([start, from]);
                start = to;
            }
        }
        rest.push([start, end]);
    }
    union(rest)
}

fn count(set: &[Run]) -> u64 {
    set.iter().map(|[start, end]| end - start).sum()
}

pub struct Sheet {
    pub free: u64,
    pub usable: u64,
    /// The usable pages themselves.
    runs: Vec<Run>,
}

impl Sheet {
    /// The sheet of some registrations under limits.
    pub fn new(claims: &[Claim], low: Option<u64>, high: Option<u64>) -> Self {
        let (low, high) = (up(low.unwrap_or(0)), down(high.unwrap_or(u64::MAX)));
        let of = |is_free: bool| {
            let some = claims.iter().filter(|claim| (claim[2] == FREE) == is_free);
            union(some.map(|claim| pages(*claim)).collect())
        };
        let inside = |[start, end]: &Run| [*start.max(&low), *end.min(&high)];
        let free = union(of(true).iter().map(inside).collect());
        let runs = without(&free, &of(false));
        Self { free: count(&free), usable: count(&runs), runs }
    }

    /// The usable pages as areas, base and size of each.
    pub fn areas(&self) -> Vec<[u64; 2]> {
        self.runs.iter().map(|[start, end]| [start * PAGE, (end - start) * PAGE]).collect()
    }

    /// The bits of the share, or `none`.
    pub fn share(&self) -> String {
        match self.free {
            0 => "none".into(),
            free => format!("{:016x}", (self.usable as f64 / free as f64).to_bits()),
        }
    }
}
