//! Random late claims behind random order files, at the edges of the areas of that very file.
use crate::cases::{DEVICE, FREE, KINDS, NO_KINDS, NULL, PAGE, T};
use crate::choices::Maker;
use crate::orders::built;
use crate::rust::{Claim, Entry};
use crate::startup::original::held;
use crate::tree_cases::far_page;

/// What a file leaves: its areas, base and size of each, and the entries of its map.
#[derive(Default)]
struct Left {
    areas: Vec<[u64; 2]>,
    held: Vec<Entry>,
}

impl Left {
    /// Whether a claim has something to meet: areas, or a map that is nearly full.
    fn is_worth_claiming_in(&self) -> bool {
        !self.areas.is_empty() || self.is_nearly_full()
    }

    fn is_nearly_full(&self) -> bool {
        self.held.len() > 500
    }
}

/// So many files are drawn until one leaves what is worth claiming in.
const DRAWS: usize = 6;

impl Maker {
    /// An order file, late claims, and at times bytes that are none.
    pub fn late_input(&mut self) -> Vec<u8> {
        let (mut input, left) = self.file_to_claim_in();
        let count = 3 + self.rng.below(6);
        let count = self.choose(&[
            (1, "claims: none", 0),
            (6, "claims: one", 1),
            (4, "claims: two", 2),
            (6, "claims: three to eight", count),
            (1, "claims: forty", 40),
        ]);
        let mut claims: Vec<Claim> = Vec::new();
        for _ in 0..count {
            let claim = self.late_claim(&left, &claims);
            claims.push(claim);
        }
        input.extend(claims.as_flattened().iter().flat_map(|number| number.to_le_bytes()));
        self.left_over(&mut input);
        input
    }

    /// A file, mostly one that is built and has areas, and what it leaves.
    fn file_to_claim_in(&mut self) -> (Vec<u8>, Left) {
        for _ in 1..DRAWS {
            let (file, left) = self.any_file();
            if left.is_worth_claiming_in() || self.rng.one_in(12) {
                return (file, left);
            }
        }
        self.any_file()
    }

    fn any_file(&mut self) -> (Vec<u8>, Left) {
        let file = self.order_file();
        let left = built(&file, &mut Vec::new()).map(|built| Left { areas: built.areas, held: held() });
        (file, left.unwrap_or_default())
    }

    fn late_claim(&mut self, left: &Left, claims: &[Claim]) -> Claim {
        let kind = self.rng.pick(&KINDS[2..]);
        let top = self.rng.pick(&[0, PAGE, 1 << 63, T - PAGE - 1, T - PAGE, T - 1, T, T + 1, u64::MAX]);
        let top_size = self.rng.pick(&[1, 0xfff, 0x1000, 0x1001, 1 << 63, u64::MAX - 1, u64::MAX]);
        let alone = self.rng.below(64);
        let [base, size, _] = claims.last().copied().unwrap_or([alone * PAGE, PAGE, kind]);
        let some_held = u64::from(!left.held.is_empty());
        let some_areas = u64::from(!left.areas.is_empty());
        let more_alone = if left.is_nearly_full() { 8 } else { 1 };
        let at = self.choose(&[
            (20 * some_areas, "claim: at an area", 0),
            (6 * some_held, "claim: at a held entry", 1),
            (2, "claim: at the top", 2),
            (more_alone, "claim: alone", 3),
            (1, "claim: the last one again", 4),
            (1, "claim: behind the last one", 5),
        ]);
        let claim = match at {
            0 => {
                let [base, size] = self.at_area(&left.areas);
                [base, size, kind]
            }
            1 => self.at_held(&left.held, kind),
            2 => [top, top_size, kind],
            3 => far_page(800 + alone, kind),
            4 => [base, size, kind],
            _ => [base.wrapping_add(size), PAGE, kind],
        };
        self.of_some_kind(claim)
    }

    /// A claim at an edge of an area, in its midst, or from one area to another.
    fn at_area(&mut self, areas: &[[u64; 2]]) -> [u64; 2] {
        let at = self.place(areas.len());
        let midst = |[base, size]: [u64; 2]| (base + size / 2) / PAGE * PAGE;
        let [base, size] = areas[at];
        let end = base + size;
        let next = areas.get(at + 1).map_or(end.saturating_add(PAGE), |[next, _]| *next);
        let (here, there) = (midst(areas[at]), midst(self.rng.pick(areas)));
        let edge = self.rng.pick(&[base, end, here]);
        let (near, odd) = (self.rng.near(edge), self.rng.size(4));
        let (byte, few) = (self.rng.near(here), 1 + self.rng.below(3));
        self.choose(&[
            (2, "place: ends at an area's start", [base.wrapping_sub(PAGE), PAGE]),
            (2, "place: starts at an area's end", [end, PAGE]),
            (2, "place: an area's first page", [base, PAGE]),
            (2, "place: an area's last page", [end - PAGE, PAGE]),
            (2, "place: all but an area's first page", [base + PAGE, size - PAGE]),
            (2, "place: all but an area's last page", [base, size - PAGE]),
            (2, "place: a whole area", [base, size]),
            (1, "place: a whole area and more", [base.wrapping_sub(1), size + 2]),
            (6, "place: pages in an area's midst", [here, few * PAGE]),
            (3, "place: a byte in an area's midst", [byte, 1]),
            (4, "place: odd edges", [near, odd]),
            (2, "place: the gap behind an area", [end, next - end]),
            (2, "place: from one area's midst to another's", [here.min(there), here.abs_diff(there)]),
            (2, "place: of size 0", [near, 0]),
        ])
    }

    /// A claim that meets a held entry, of its kind or of this one.
    fn at_held(&mut self, held: &[Entry], kind: u64) -> Claim {
        let [start, end, own] = self.rng.pick(held);
        let own = if own == FREE { DEVICE } else { own };
        let (near, odd) = (self.rng.near(start), self.rng.size(4));
        self.choose(&[
            (3, "entry: touching its end, of its kind", [end, PAGE, own]),
            (3, "entry: touching its start, of its kind", [start.wrapping_sub(PAGE), PAGE, own]),
            (2, "entry: over it, of its kind", [start.wrapping_sub(1), end - start + 2, own]),
            (1, "entry: held already", [start, end - start, own]),
            (1, "entry: touching its end, of any kind", [end, PAGE, kind]),
            (1, "entry: one page apart, of its kind", [end.wrapping_add(PAGE), PAGE, own]),
            (2, "entry: odd edges", [near, odd, own]),
        ])
    }

    /// A claim, mostly as it is; at times of a kind that is refused, with size 0 too.
    fn of_some_kind(&mut self, [base, size, kind]: Claim) -> Claim {
        let unknown = self.rng.pick(&NO_KINDS);
        let size = if self.rng.one_in(60) { 0 } else { size };
        let kind = self.choose(&[
            (100, "kind: one that is taken late", kind),
            (1, "kind: Null", NULL),
            (2, "kind: Free", FREE),
            (2, "kind: none of the seven", unknown),
        ]);
        [base, size, kind]
    }

    /// Bytes behind the last claim, too few for one.
    fn left_over(&mut self, input: &mut Vec<u8>) {
        let [base, size, kind] = far_page(0, DEVICE);
        let claim: Vec<u8> = [base, size, kind].iter().flat_map(|number| number.to_le_bytes()).collect();
        let few = 1 + self.place(23);
        let any = [self.rng.next() as u8; 23];
        let bytes = self.choose(&[
            (6, "left over: nothing", &[][..]),
            (1, "left over: some bytes", &any[..few]),
            (1, "left over: all but the last byte of a claim", &claim[..23]),
        ]);
        input.extend(bytes);
    }
}
