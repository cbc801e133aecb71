//! Random order files: trees, lists, pairs and limits that meet one another, and layouts that are kept or broken.
use crate::cases::{NO_KINDS, PAGE, T};
use crate::choices::{Choice, Maker};
use crate::order_edges::wide;
use crate::order_file::{HEAD, LARGEST, OrderFile};
use crate::order_layout::{BREAKS, Edit, KEEPS};
use crate::order_lists::MANY;
use crate::rust::{Claim, Heard, tree_claims};
use crate::whole::registrations;

impl Maker {
    pub fn order_file(&mut self) -> Vec<u8> {
        self.chosen.clear();
        // First, since what was chosen before a damaged tree is forgotten.
        let tree = self.tree_or_none();
        let arm = self.choose(&[(1, "build: for another processor", false), (1, "build: for 64-bit ARM", true)]);
        let heard = tree_claims(&tree, arm).unwrap_or_default();
        let mut order = OrderFile { arm, tree, ..OrderFile::default() };
        order.list = self.list(&claims(&heard));
        let listed = registrations(&order, &heard);
        order.pairs = self.pairs(&listed);
        let all = registrations(&order, &heard);
        (order.low, order.high) = self.limits(&all);
        self.set_unknown_kinds(&mut order.list);
        let mut file = order.bytes();
        if file.len() <= LARGEST {
            self.edit(&mut file);
        }
        file
    }

    fn tree_or_none(&mut self) -> Vec<u8> {
        if self.maybe("tree: none", 4) {
            return Vec::new();
        }
        if !self.maybe("tree: of about 4,096 nodes", 300) {
            return self.blob();
        }
        let nodes = self.choose(&[
            (1, "nodes: 4,095", 4095),
            (2, "nodes: 4,096", 4096),
            (2, "nodes: 4,097", 4097),
            (1, "nodes: 4,098", 4098),
        ]);
        wide(nodes)
    }

    /// The five pairs, beside some registrations and one another.
    fn pairs(&mut self, claims: &[Claim]) -> [[u64; 2]; 5] {
        let mut pairs = [[0; 2]; 5];
        if self.maybe("pairs: all empty", if claims.len() > MANY { 2 } else { 6 }) {
            return pairs;
        }
        let mut last = [0; 2];
        for (i, pair) in pairs.iter_mut().enumerate() {
            *pair = self.pair(claims, last, i as u64);
            last = *pair;
        }
        pairs
    }

    fn pair(&mut self, claims: &[Claim], [last, last_size]: [u64; 2], i: u64) -> [u64; 2] {
        let [base, size, _] = self.rng.pick(claims);
        let bridging = if claims.len() > MANY { 12 } else { 1 };
        let midst = base.wrapping_add(size / 2);
        let near = self.rng.near(midst);
        let odd = self.rng.size(4);
        let [beside, beside_size, _] = self.beside(claims);
        let top = self.rng.pick(&[T - PAGE - 1, T - PAGE, T - 1, T, T + 1, u64::MAX]);
        let top_size = self.rng.pick(&[1, 0xfff, 0x1000, 0x1001, u64::MAX]);
        self.choose(&[
            (3, "pair: empty", [0, 0]),
            (2, "pair: size 0", [near, 0]),
            (4, "pair: in the midst of a registration", [midst / PAGE * PAGE, PAGE]),
            (4, "pair: odd edges", [near, odd]),
            (4, "pair: beside a registration", [beside, beside_size]),
            (2, "pair: at the top", [top, top_size]),
            (2, "pair: over the last one", [last.wrapping_sub(1), last_size.saturating_add(2)]),
            (1, "pair: behind the last one", [last.wrapping_add(last_size), PAGE]),
            (bridging, "pair: the page behind a registration's first", [base.wrapping_add(PAGE), PAGE]),
            (2, "pair: alone", [0x6000_0000_0000 + 2 * i * PAGE, PAGE]),
            (1, "pair: a registration again", [base, size]),
        ])
    }

    fn place_to_cut(&mut self, claims: &[Claim]) -> (&'static str, u64) {
        let [base, size, _] = self.rng.pick(claims);
        let end = base.saturating_add(size);
        let page = base.wrapping_add(size / 2) / PAGE * PAGE;
        self.draw(&[
            (1, "limit: 0", 0),
            (1, "limit: 1", 1),
            (1, "limit: 0xfff", 0xfff),
            (1, "limit: 0x1000", 0x1000),
            (1, "limit: 0x1001", 0x1001),
            (2, "limit: a registration's start", base),
            (1, "limit: one below a start", base.wrapping_sub(1)),
            (1, "limit: one above a start", base.wrapping_add(1)),
            (2, "limit: a registration's end", end),
            (1, "limit: one below an end", end.wrapping_sub(1)),
            (1, "limit: one above an end", end.wrapping_add(1)),
            (2, "limit: at a page in a registration's midst", page),
            (1, "limit: one below such a page", page.wrapping_sub(1)),
            (1, "limit: one above such a page", page + 1),
            (1, "limit: T - 1", T - 1),
            (1, "limit: T", T),
            (1, "limit: T + 1", T + 1),
            (1, "limit: 2^64 - 1", u64::MAX),
        ])
    }

    /// A limit. It is mostly the outer one of two, so that more is left between the limits.
    fn limit(&mut self, claims: &[Claim], outer: fn(u64, u64) -> u64) -> u64 {
        let (one, other) = (self.place_to_cut(claims), self.place_to_cut(claims));
        let (name, limit) = if self.rng.one_in(2) || outer(one.1, other.1) == one.1 { one } else { other };
        self.note(name);
        limit
    }

    /// Low and high, which mostly leave something between them.
    fn limits(&mut self, claims: &[Claim]) -> (Option<u64>, Option<u64>) {
        let (has_low, has_high) = self.choose(&[
            (4, "limits: none", (false, false)),
            (2, "limits: low alone", (true, false)),
            (2, "limits: high alone", (false, true)),
            (3, "limits: both", (true, true)),
        ]);
        let low = has_low.then(|| self.limit(claims, u64::min));
        let high = has_high.then(|| self.limit(claims, u64::max));
        let turned = low.zip(high).is_some_and(|(low, high)| low > high);
        if turned && !self.maybe("limits: low above high", 5) { (high, low) } else { (low, high) }
    }

    /// Gives some entries a kind that is none, and some of these size 0.
    fn set_unknown_kinds(&mut self, list: &mut [Claim]) {
        if list.is_empty() || !self.maybe("kind: unknown", 16) {
            return;
        }
        for _ in 0..=self.rng.below(2) {
            let at = self.place(list.len());
            list[at][2] = self.rng.pick(&NO_KINDS);
            if self.maybe("kind: unknown, size 0", 2) {
                list[at][1] = 0;
            }
        }
    }

    /// Breaks the layout, gives it another meaning, or mostly does neither.
    fn edit(&mut self, file: &mut Vec<u8>) {
        match self.choose(&[
            (48, "layout: kept", 0),
            (2, "layout: a byte of the first 112 changed", 1),
            (4, "layout: broken", 2),
            (1, "layout: kept with another meaning", 3),
        ]) {
            0 => {}
            1 => {
                let (at, bit) = (self.place(HEAD), self.rng.below(8));
                let any = self.rng.next() as u8;
                file[at] = self.rng.pick(&[any, file[at] ^ 1 << bit, file[at].wrapping_add(1)]);
            }
            2 => {
                self.one_of(&BREAKS)(file);
                assert!(OrderFile::read(file).is_none(), "a layout that is not broken");
            }
            _ => {
                self.one_of(&KEEPS)(file);
                assert!(OrderFile::read(file).is_some(), "a layout that is not kept");
            }
        }
    }

    /// One of some edits. Those that make a file as large as can be are rare.
    fn one_of(&mut self, edits: &[Edit]) -> fn(&mut Vec<u8>) {
        let weigh = |(name, edit): &Edit| (if name.contains("65,53") { 1 } else { 6 }, *name, *edit);
        let choices: Vec<Choice<fn(&mut Vec<u8>)>> = edits.iter().map(weigh).collect();
        self.choose(&choices)
    }
}

fn claims(heard: &[Heard]) -> Vec<Claim> {
    heard.iter().map(|(claim, _)| *claim).collect()
}
