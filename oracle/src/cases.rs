//! The cases: first the edges that document 01 names, then random ones that dwell on edges.
use crate::rng::Rng;
use crate::rust::{self, Claim};
use crate::startup::original::{held, hold};

pub const PAGE: u64 = 4096;
/// The start of the last page.
pub const T: u64 = PAGE.wrapping_neg();
pub const NULL: u64 = 0;
pub const FREE: u64 = 1;
pub const RESERVED: u64 = 3;
pub const KERNEL: u64 = 0x100;
pub const DEVICE: u64 = 0x101;
pub const IDENTITY_MAP: u64 = 0x102;
pub const KINDS: [u64; 7] = [NULL, FREE, 2, RESERVED, KERNEL, DEVICE, IDENTITY_MAP];
pub const NO_KINDS: [u64; 8] = [4, 0xff, 0x103, 0x200, 0x1_0000_0001, 1 << 63, u64::MAX - 1, u64::MAX];

pub struct Case {
    pub claims: Vec<Claim>,
    /// How many are registered before the rest is handed over as a list.
    pub first: usize,
    /// Bytes after the last entry of that list.
    pub tail: usize,
    pub low: Option<u64>,
    pub high: Option<u64>,
    /// Numbers in the lent slice.
    pub len: usize,
}

impl Rng {
    pub fn size(&mut self, pages: u64) -> u64 {
        if self.one_in(4) {
            return self.pick(&[0, 1, 2, 0x7ff, 0x800, 0xfff, 0x1000, 0x1001, 0x1fff, 0x2000]);
        }
        let pages = self.below(pages);
        self.near(pages * PAGE)
    }

    /// The kinds of one case: few of them meet more often.
    fn palette(&mut self) -> Vec<u64> {
        match self.below(5) {
            0 => vec![FREE],
            1 => vec![FREE, FREE, FREE, self.pick(&KINDS)],
            2 => vec![FREE, FREE, RESERVED, self.pick(&KINDS)],
            3 => vec![FREE, FREE, FREE, 2, RESERVED, KERNEL, 0x101, IDENTITY_MAP],
            _ => KINDS.to_vec(),
        }
    }

    /// Ranges that touch, overlap and hold one another, in a window of few pages.
    pub fn window(&mut self) -> Vec<Claim> {
        let pages = 16 + self.below(49);
        let start = match self.below(4) {
            0 => 0,
            1 => T - self.below(pages) * PAGE,
            2 => T - pages * PAGE,
            _ => self.below(1 << 40) * PAGE,
        };
        let kinds = self.palette();
        let most = self.pick(&[2, 4, 8, pages]);
        (0..self.below(31))
            .map(|_| {
                let page = start.wrapping_add(self.below(pages) * PAGE);
                [self.near(page), self.size(most), self.pick(&kinds)]
            })
            .collect()
    }

    /// Numbers at the top, where sums pass 2^64, and numbers from anywhere.
    pub fn top(&mut self) -> Vec<Claim> {
        let kinds = self.palette();
        let edges = [0, PAGE, 1 << 32, 1 << 63, T - PAGE, T - 1, T, T + 1, u64::MAX - 1, u64::MAX];
        (0..self.below(13))
            .map(|_| {
                let any = self.next() >> self.below(64);
                let edge = self.pick(&edges);
                let below = edge.wrapping_sub(self.below(6) * PAGE);
                let base = self.pick(&[any, edge, below]);
                let size = self.size(8);
                let size = self.pick(&[size, any, base.wrapping_neg(), T.wrapping_sub(base), edge]);
                [self.near(base), self.near(size), self.pick(&kinds)]
            })
            .collect()
    }

    /// Large Free ranges, and many small ones of other kinds in and around them.
    pub fn carved(&mut self) -> Vec<Claim> {
        let start = self.below(1 << 20) * PAGE;
        let mut claims = Vec::new();
        for _ in 0..=self.below(3) {
            let size = self.below(48) * PAGE;
            claims.push([start + self.below(24) * PAGE, self.near(size), FREE]);
        }
        for _ in 0..self.below(24) {
            let page = start + self.below(64) * PAGE;
            let size = self.pick(&[1, 1, 2, PAGE, PAGE, 3 * PAGE]);
            claims.push([self.near(page), size, self.pick(&KINDS[2..])]);
        }
        self.shuffle(&mut claims);
        claims
    }

    /// A map that is full or nearly so: every second page, then ranges that stand alone, touch or bridge.
    fn full(&mut self) -> Vec<Claim> {
        let start = match self.below(3) {
            0 => 0,
            1 => T - (1000 + self.below(100)) * PAGE,
            _ => self.below(1 << 40) * PAGE,
        };
        let page = |i: u64| start.wrapping_add(i * PAGE);
        let some = [FREE, self.pick(&KINDS[1..]), self.pick(&KINDS[1..])];
        let kinds = self.pick(&[&[FREE][..], &[RESERVED], &some, &KINDS[1..]]);
        let kept = 505 + self.below(15);
        let mut claims: Vec<Claim> = match self.below(4) {
            // Free ranges with a hole to be cut into each.
            0 => (0..256).flat_map(|i| [[page(4 * i), 3 * PAGE, FREE], [page(4 * i + 1), PAGE, RESERVED]]).collect(),
            // One Free range over all, to be carved.
            1 => (0..kept).map(|i| [page(2 * i + 1), PAGE, RESERVED]).chain([[start, 1100 * PAGE, FREE]]).collect(),
            _ => (0..kept).map(|i| [page(2 * i), PAGE, self.pick(kinds)]).collect(),
        };
        match self.below(3) {
            0 => {}
            1 => claims.reverse(),
            _ => self.shuffle(&mut claims),
        }
        for _ in 0..self.below(60) {
            let size = match self.below(12) {
                0 => self.size(8),
                1 => self.below(20) * PAGE,
                _ => PAGE,
            };
            claims.push([page(self.below(1100)), size, self.pick(kinds)]);
        }
        claims
    }

    fn claims(&mut self) -> Vec<Claim> {
        let full = self.one_in(200);
        let mut claims = match self.below(8) {
            _ if full => self.full(),
            0..=3 => self.window(),
            4 | 5 => self.top(),
            _ => self.carved(),
        };
        if !claims.is_empty() && self.one_in(if full { 3 } else { 10 }) {
            for _ in 0..=self.below(3) {
                let at = self.below(claims.len() as u64) as usize;
                claims[at][2] = self.pick(&NO_KINDS);
            }
        }
        claims
    }

    /// A place that a limit can cut: an edge of some range, or its midst.
    fn place(&mut self, claims: &[Claim]) -> u64 {
        let [base, size, _] = self.pick(claims);
        let at = self.pick(&[base, base.saturating_add(size), base.saturating_add(size / 2)]);
        self.near(at)
    }

    /// A limit, or none. It is often the outer one of two places, so that more is left between the limits.
    fn limit(&mut self, claims: &[Claim], outer: fn(u64, u64) -> u64) -> Option<u64> {
        if self.one_in(2) {
            return None;
        }
        if claims.is_empty() || self.one_in(6) {
            return Some(self.pick(&[0, 1, 0xfff, 0x1000, 0x1001, 1 << 32, T - 1, T, T + 1, u64::MAX]));
        }
        let place = self.place(claims);
        Some(if self.one_in(3) { place } else { outer(place, self.place(claims)) })
    }

    /// A length around twice the number of areas, so that the last slot is there or not, whole or halved.
    fn len(&mut self, count: usize) -> usize {
        let exact = 2 * count;
        match self.below(8) {
            0 | 1 => exact,
            2 => exact + 1,
            3 => exact.saturating_sub(1),
            4 => exact.saturating_sub(2),
            5 => exact + 2,
            6 => exact + self.below(40) as usize,
            _ => self.below(exact as u64 + 1) as usize,
        }
    }

    fn random(&mut self) -> Case {
        let claims = self.claims();
        let n = claims.len();
        let full = [n.min(511), n.min(512), n.min(513), n.saturating_sub(1)];
        let first = match self.below(6) {
            0 => 0,
            1 => n,
            2 => self.pick(&full),
            _ => self.below(n as u64 + 1) as usize,
        };
        let any = self.below(24) as usize;
        let tail = self.pick(&[0, 1, 8, 16, 23, any]);
        let low = self.limit(&claims, u64::min);
        let high = self.limit(&claims, u64::max);
        let mut case = Case { claims, first, tail, low, high, len: 0 };
        let count = areas(&case);
        case.len = self.len(count);
        case
    }
}

/// How many areas the Rust makes of a case.
fn areas(case: &Case) -> usize {
    hold(&[]);
    for claim in &case.claims {
        rust::register(*claim);
    }
    rust::build(case.low, case.high, 2 * held().len()).count as usize
}

fn plain(claims: &[Claim]) -> Case {
    Case { claims: claims.to_vec(), first: claims.len() / 2, tail: 0, low: None, high: None, len: 8 }
}

/// The edges of document 01 that a stream starts with.
fn edges() -> Vec<Case> {
    let mut cases = vec![
        plain(&[[0x800, 0x1000, FREE]]),
        plain(&[[0x800, 0x1800, FREE]]),
        plain(&[[0x1000, 0x800, FREE], [0x1800, 0x800, FREE]]),
        plain(&[[0x1fff, 2, RESERVED]]),
        plain(&[[T, 0x1000, FREE]]),
        plain(&[[0xffff_ffff_ffff_e000, u64::MAX, RESERVED]]),
        Case { low: Some(1), high: Some(0x1fff), ..plain(&[[0, 0x80_0000, FREE]]) },
        plain(&[[0, 0x80_0000, FREE], [0x10_0000, 0x20_0000, KERNEL], [0x40_0800, 0x1000, IDENTITY_MAP]]),
    ];
    let pages: Vec<Claim> = (0..512).map(|i| [2 * i * PAGE, PAGE, FREE]).collect();
    let full = |first: usize, more: &[Claim]| Case { first, len: 1024, ..plain(&[&pages[..], more].concat()) };
    let (alone, between) = ([2000 * PAGE, PAGE, FREE], [PAGE, PAGE, FREE]);
    cases.push(full(515, &[alone, [PAGE, PAGE, RESERVED], between]));
    // A list that is refused once some of it is registered, and one with a kind that is none after the refusal.
    cases.push(full(512, &[between, alone, [3000 * PAGE, PAGE, FREE]]));
    cases.push(full(512, &[alone, [0, PAGE, 0x1_0000_0001]]));
    cases
}

/// The cases of a seed, without end.
pub fn cases(seed: u64) -> impl Iterator<Item = Case> {
    let mut rng = Rng::new(seed);
    edges().into_iter().chain(std::iter::repeat_with(move || rng.random()))
}
