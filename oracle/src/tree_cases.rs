//! Random cases of trees: whole ones, damaged ones, and the map that they come to.
use crate::blob::{self, Blocks, HEADER, Order};
use crate::cases::{DEVICE, FREE, KINDS, PAGE, RESERVED};
use crate::choices::Maker;
use crate::rust::{self, Claim, register_tree};
use crate::startup::original::{held, hold};

pub struct TreeCase {
    /// Registered on the empty map before the tree: the Rust accepts each.
    pub before: Vec<Claim>,
    pub arm: bool,
    pub tree: Vec<u8>,
}

/// Page `i` of those that do not touch, away from the addresses of nearly all trees.
pub fn far_page(i: u64, kind: u64) -> Claim {
    [0x5000_0000_0000 + 2 * i * PAGE, PAGE, kind]
}

impl Maker {
    pub fn random(&mut self) -> TreeCase {
        self.chosen.clear();
        let tree = self.blob();
        let arm = self.choose(&[(1, "build: for another processor", false), (1, "build: for 64-bit ARM", true)]);
        hold(&[]);
        let claims: Vec<Claim> = register_tree(&tree, arm).heard.into_iter().map(|(claim, _)| claim).collect();
        TreeCase { before: self.before(&claims), arm, tree }
    }

    /// A tree. What was chosen for one that is then damaged says little of it, and is forgotten.
    pub fn blob(&mut self) -> Vec<u8> {
        let (name, make) = self.draw::<fn(&mut Self) -> Vec<u8>>(&[
            (60, "tree: sound", Self::sound),
            (8, "tree: its structure damaged", Self::with_damaged_structure),
            (4, "tree: tokens put in", Self::with_tokens_put_in),
            (12, "tree: its bytes damaged", Self::with_damaged_bytes),
            (3, "tree: deep", Self::of_many_levels),
            (1, "tree: of many claims", Self::of_many_claims),
            (1, "tree: of 0 bytes", |_| Vec::new()),
        ]);
        let tree = make(self);
        self.note(name);
        tree
    }

    fn of_many_levels(&mut self) -> Vec<u8> {
        let levels = self.choose(&[
            (1, "levels: 31", 31),
            (3, "levels: 32", 32),
            (2, "levels: 33", 33),
            (1, "levels: 34", 34),
        ]);
        Blocks::plain(&[], &self.deep(levels)).lay_out(Order::Usual)
    }

    fn of_many_claims(&mut self) -> Vec<u8> {
        let count = 508 + self.rng.below(8);
        Blocks::plain(&[], &self.many(count)).lay_out(Order::Usual)
    }

    fn with_damaged_structure(&mut self) -> Vec<u8> {
        let mut blocks = self.blocks();
        self.chosen.clear();
        self.damage_structure(&mut blocks.structure);
        blocks.lay_out(Order::Usual)
    }

    /// A tree with tokens between those it has: none, one or few.
    fn with_tokens_put_in(&mut self) -> Vec<u8> {
        let (root, reservations) = (self.tree(), self.reservations());
        self.chosen.clear();
        let tokens: &[u32] = self.choose(&[
            (3, "damage: a property put in", &[3, 0, 0]),
            (2, "damage: a node put in", &[1, 0x6100_0000, 2]),
            (1, "damage: the start of a node put in", &[1, 0x6100_0000]),
            (1, "damage: the end of a node put in", &[2]),
            (1, "damage: the end of the tree put in", &[9]),
        ]);
        let mut put_in = |structure: &mut Vec<u8>| {
            if self.rng.one_in(60) {
                structure.extend(tokens.iter().flat_map(|token| token.to_be_bytes()));
            }
        };
        Blocks::new(&reservations, &root, &mut put_in).lay_out(Order::Usual)
    }

    fn with_damaged_bytes(&mut self) -> Vec<u8> {
        let mut tree = self.sound();
        self.chosen.clear();
        self.damage_bytes(&mut tree);
        tree
    }

    fn blocks(&mut self) -> Blocks {
        let root = self.tree();
        let reservations = self.reservations();
        let one_in = self.choose(&[(3, "NOPs: none", u64::MAX), (1, "NOPs: some", 20), (1, "NOPs: many", 2)]);
        let mut two_nops = |structure: &mut Vec<u8>| {
            if self.rng.one_in(one_in) {
                structure.extend([0, 0, 0, 4, 0, 0, 0, 4]);
            }
        };
        Blocks::new(&reservations, &root, &mut two_nops)
    }

    fn sound(&mut self) -> Vec<u8> {
        let blocks = self.blocks();
        let order = self.order();
        let mut tree = blocks.lay_out(order);
        let [at, structure] = [blob::RESERVATIONS, blob::STRUCTURE].map(|field| blob::field(&tree, field));
        let offset = self.choose(&[
            (16, "block: its offset sound", at),
            (1, "block: its offset below 40", 32),
            (1, "block: its offset 0", 0),
            (1, "block: its offset no multiple of 8", at + 4),
            (1, "block: its offset the structure's", structure),
            (1, "block: its offset past the structure's", structure + 8),
        ]);
        blob::set_field(&mut tree, blob::RESERVATIONS, offset);
        let more = self.rng.next().to_be_bytes();
        if self.choose(&[(5, "bytes: up to totalsize", false), (1, "bytes: past totalsize", true)]) {
            tree.extend(&more[..1 + self.place(8)]);
        }
        if !tree.len().is_multiple_of(4) {
            self.note("bytes: no multiple of 4");
        }
        tree
    }

    fn damage_structure(&mut self, structure: &mut Vec<u8>) {
        let at = 4 * self.place(structure.len() / 4);
        match self.choose(&[
            (4, "damage: a word of the structure changed", 0),
            (2, "damage: a word of the structure left out", 1),
            (2, "damage: a word of the structure doubled", 2),
            (2, "damage: the structure cut", 3),
            (1, "damage: bytes behind the structure", 4),
        ]) {
            0 => {
                let word: u32 = self.rng.pick(&[0, 1, 2, 3, 4, 5, 9, u32::MAX]);
                structure[at..at + 4].copy_from_slice(&word.to_be_bytes());
            }
            1 => drop(structure.drain(at..at + 4)),
            2 => {
                let word: Vec<u8> = structure[at..at + 4].to_vec();
                structure.splice(at..at, word);
            }
            3 => structure.truncate(self.place(structure.len())),
            _ => structure.extend(&[0, 0, 0, 4][..1 + self.place(4)]),
        }
    }

    fn damage_bytes(&mut self, tree: &mut Vec<u8>) {
        let len = tree.len() as u32;
        match self.choose(&[
            (6, "damage: a byte changed", 0),
            (2, "damage: a tail cut", 1),
            (4, "damage: a field of the header changed", 2),
        ]) {
            0 => {
                let at = self.place(tree.len());
                let bit = 1 << self.rng.below(8);
                let any = self.rng.next() as u8;
                tree[at] = self.rng.pick(&[any, tree[at] ^ bit, tree[at].wrapping_add(1), 0]);
            }
            1 => {
                tree.truncate(self.place(tree.len()));
                if tree.len() >= HEADER && self.rng.one_in(2) {
                    let total = tree.len() as u32;
                    blob::set_field(tree, blob::TOTAL_SIZE, total);
                }
            }
            _ => {
                let field = self.place(10);
                let old = blob::field(tree, field);
                let near = [old.wrapping_sub(1), old.wrapping_add(1), old.wrapping_sub(4), old.wrapping_add(4)];
                let fixed = [0, 16, 18, 39, 40, 41, 44, len - 1, len, len + 1, u32::MAX];
                let number = self.rng.pick(&[&near[..], &fixed].concat());
                blob::set_field(tree, field, number);
            }
        }
    }

    /// A registration that meets a claim, or comes near one.
    pub fn beside(&mut self, claims: &[Claim]) -> Claim {
        let [base, size, kind] = self.rng.pick(claims);
        let end = base.saturating_add(size);
        let midst = base.wrapping_add(size / 2);
        let at = self.rng.pick(&[base, base.wrapping_sub(PAGE), end, end.wrapping_add(PAGE), midst]);
        let size = self.rng.pick(&[1, PAGE, PAGE, 2 * PAGE, size]);
        let kind = self.rng.pick(&[kind, kind, RESERVED, DEVICE, FREE]);
        [self.rng.near(at), size, kind]
    }

    /// Registrations before the tree, which makes these claims on the empty map: none, some beside the claims, or these
    /// and pages up to so many entries.
    fn before(&mut self, claims: &[Claim]) -> Vec<Claim> {
        let nearly = 500 + self.rng.below(9);
        let filled = self.choose(&[
            (24, "map: empty", None),
            (24, "map: few entries", Some(0)),
            (1, "map: 500 to 508 entries", Some(nearly)),
            (1, "map: 509 entries", Some(509)),
            (1, "map: 510 entries", Some(510)),
            (1, "map: 511 entries", Some(511)),
            (2, "map: 512 entries", Some(512)),
        ]);
        let Some(filled) = filled else {
            return Vec::new();
        };
        let mut list = Vec::new();
        for _ in 0..self.rng.below(6) {
            list.push(if claims.is_empty() { [PAGE, PAGE, FREE] } else { self.beside(claims) });
        }
        let kinds = self.rng.pick(&[&[FREE][..], &[RESERVED], &[DEVICE], &KINDS[1..]]);
        list.extend((0..filled).map(|i| far_page(i, self.rng.pick(kinds))));
        if self.rng.one_in(2) {
            self.rng.shuffle(&mut list);
        }
        let most = if filled == 0 { 512 } else { filled as usize };
        hold(&[]);
        list.retain(|claim| held().len() < most && rust::register(*claim) == rust::DONE);
        list
    }
}
