//! Random lists for order files, from empty ones to such as leave the map no room.
use crate::cases::{DEVICE, FREE, IDENTITY_MAP, KERNEL, KINDS, PAGE, RESERVED};
use crate::choices::Maker;
use crate::rust::Claim;
use crate::tree_cases::far_page;

/// With so many registrations the map is nearly full.
pub const MANY: usize = 400;

impl Maker {
    /// A list for an order file whose tree makes these claims.
    pub fn list(&mut self, claims: &[Claim]) -> Vec<Claim> {
        if claims.len() > MANY && self.maybe("list: Free for a tree of many claims", 2) {
            return vec![[0, 1 << 32, FREE]];
        }
        let (name, make) = self.draw::<fn(&mut Self, &[Claim]) -> Vec<Claim>>(&[
            (6, "list: empty", |_, _| Vec::new()),
            (30, "list: Free around the tree's claims", Self::around),
            (16, "list: in few pages", |maker, _| maker.rng.window()),
            (8, "list: at the top", |maker, _| maker.rng.top()),
            (16, "list: Free with holes", |maker, _| maker.rng.carved()),
            (3, "list: 100 to 400 entries", |maker, _| maker.hundreds()),
            (8, "list: about 512 entries apart", |maker, _| maker.apart()),
            (1, "list: over 1,000 entries", |maker, _| maker.thousands()),
        ]);
        let list = make(self, claims);
        self.note(name);
        list
    }

    /// Free memory in which a tree's claims are seen, and some entries that meet them.
    fn around(&mut self, claims: &[Claim]) -> Vec<Claim> {
        let mut list = Vec::new();
        for _ in 0..=self.rng.below(3) {
            let [base, size, _] = if claims.is_empty() { [0, PAGE, 0] } else { self.rng.pick(claims) };
            let before = self.rng.below(8) * PAGE;
            let after = self.rng.below(8) * PAGE;
            let start = self.rng.near(base.saturating_sub(before));
            let near = [start, size.saturating_add(before + after), FREE];
            list.push(self.choose(&[
                (6, "Free: around a claim of the tree", near),
                (1, "Free: everywhere", [0, u64::MAX, FREE]),
                (1, "Free: the lowest 4 GiB", [0, 1 << 32, FREE]),
            ]));
        }
        for _ in 0..self.rng.below(6) {
            list.push(if claims.is_empty() { [PAGE, PAGE, RESERVED] } else { self.beside(claims) });
        }
        self.rng.shuffle(&mut list);
        list
    }

    /// Pages here and there in a window, in which some are Free already.
    fn hundreds(&mut self) -> Vec<Claim> {
        let start = self.rng.below(1 << 30) * PAGE;
        let kinds = self.rng.pick(&[&[RESERVED][..], &[FREE, RESERVED], &KINDS]);
        let one = |maker: &mut Self| {
            let page = start + maker.rng.below(1000) * PAGE;
            let size = maker.rng.pick(&[1, PAGE, PAGE, 2 * PAGE, 5 * PAGE]);
            [maker.rng.near(page), size, maker.rng.pick(kinds)]
        };
        let mut list = vec![[start, 600 * PAGE, FREE]];
        list.extend((0..100 + self.rng.below(301)).map(|_| one(self)));
        list
    }

    /// Pages that do not touch, so many that the map is nearly full, or full, or has no room; then some that touch one
    /// or bridge two of them, and some alone.
    fn apart(&mut self) -> Vec<Claim> {
        let fewer = 500 + self.rng.below(9);
        let count = self.choose(&[
            (2, "apart: 500 to 508 entries", fewer),
            (2, "apart: 509 entries", 509),
            (2, "apart: 510 entries", 510),
            (4, "apart: 511 entries", 511),
            (6, "apart: 512 entries", 512),
            (5, "apart: 513 entries", 513),
        ]);
        let kinds = self.choose(&[
            (2, "apart: Free", &[FREE][..]),
            (1, "apart: Reserved", &[RESERVED]),
            (2, "apart: kinds of the pairs", &[KERNEL, IDENTITY_MAP, IDENTITY_MAP]),
            (1, "apart: kinds of the tree", &[RESERVED, DEVICE]),
            (1, "apart: all kinds", &KINDS[1..]),
        ]);
        let mut list: Vec<Claim> = (0..count).map(|i| far_page(i, self.rng.pick(kinds))).collect();
        if self.maybe("apart: one of them is Free over all", 2) {
            let at = self.place(list.len());
            let [base, ..] = far_page(0, FREE);
            list[at] = [base, (2 * count + 1) * PAGE, FREE];
        }
        match self.choose(&[(2, "apart: ascending", 0), (1, "apart: descending", 1), (1, "apart: shuffled", 2)]) {
            0 => {}
            1 => list.reverse(),
            _ => self.rng.shuffle(&mut list),
        }
        for _ in 0..self.choose(&[(2, "more: none", 0), (2, "more: one", 1), (1, "more: four", 4)]) {
            let one = self.rng.pick(&list);
            list.push(self.one_more(one));
        }
        list
    }

    /// An entry that meets one of those apart, or does not.
    fn one_more(&mut self, [base, _, kind]: Claim) -> Claim {
        let other = self.rng.pick(&KINDS[1..]);
        self.choose(&[
            (3, "more: touching one, of its kind", [base.wrapping_add(PAGE), PAGE, kind]),
            (1, "more: touching one, of any kind", [base.wrapping_add(PAGE), PAGE, other]),
            (1, "more: held already", [base, PAGE, kind]),
            (1, "more: alone", far_page(700, kind)),
            (1, "more: of size 0", [PAGE, 0, kind]),
        ])
    }

    /// Entries that nearly all absorb one another.
    fn thousands(&mut self) -> Vec<Claim> {
        let count = 1000 + self.rng.below(1500);
        let one = |maker: &mut Self| {
            let page = maker.rng.below(300) * PAGE;
            [page, PAGE * (1 + maker.rng.below(2)), maker.rng.pick(&[FREE, FREE, FREE, RESERVED])]
        };
        (0..count).map(|_| one(self)).collect()
    }
}
