//! Trees as data, and their flattened form: Devicetree Specification v0.4, chapter 5.

#[derive(Clone, Default)]
pub struct Node {
    pub name: Vec<u8>,
    /// Name and value of each.
    pub properties: Vec<(Vec<u8>, Vec<u8>)>,
    pub children: Vec<Node>,
}

impl Node {
    pub fn new(name: &str) -> Self {
        Self { name: name.into(), ..Self::default() }
    }

    pub fn set(&mut self, name: &str, value: impl Into<Vec<u8>>) {
        self.properties.push((name.into(), value.into()));
    }

    pub fn with(mut self, name: &str, value: impl Into<Vec<u8>>) -> Self {
        self.set(name, value);
        self
    }

    pub fn holding(mut self, children: impl IntoIterator<Item = Node>) -> Self {
        self.children.extend(children);
        self
    }
}

/// Where each field of the header stands, counted in words.
pub const TOTAL_SIZE: usize = 1;
pub const STRUCTURE: usize = 2;
pub const STRINGS: usize = 3;
pub const RESERVATIONS: usize = 4;
pub const STRINGS_SIZE: usize = 8;
pub const STRUCTURE_SIZE: usize = 9;
pub const HEADER: usize = 40;

/// Puts a number into the header of a blob that has one.
pub fn set_field(blob: &mut [u8], field: usize, number: u32) {
    blob[4 * field..4 * field + 4].copy_from_slice(&number.to_be_bytes());
}

pub fn field(blob: &[u8], field: usize) -> u32 {
    u32::from_be_bytes(*blob[4 * field..].first_chunk().expect("a header"))
}

pub struct Blocks {
    pub reservations: Vec<u8>,
    pub structure: Vec<u8>,
    pub strings: Vec<u8>,
}

/// How the blocks follow the header.
#[derive(Clone, Copy)]
pub enum Order {
    Usual,
    /// Strings come before the structure, so that reservations without an end run on into them.
    StringsFirst,
    /// Reservations come after the structure, where they are not read.
    StructureFirst,
}

impl Blocks {
    pub fn plain(reservations: &[[u64; 2]], root: &Node) -> Self {
        Self::new(reservations, root, &mut |_| ())
    }

    /// `before` can put bytes before each token: it is given the structure up to there.
    pub fn new(reservations: &[[u64; 2]], root: &Node, before: &mut dyn FnMut(&mut Vec<u8>)) -> Self {
        let reservations = reservations.as_flattened().iter().flat_map(|number| number.to_be_bytes()).collect();
        let mut blocks = Self { reservations, structure: Vec::new(), strings: Vec::new() };
        blocks.node(root, before);
        blocks.token(9, before);
        blocks
    }

    fn word(&mut self, word: u32) {
        self.structure.extend(word.to_be_bytes());
    }

    fn token(&mut self, token: u32, before: &mut dyn FnMut(&mut Vec<u8>)) {
        before(&mut self.structure);
        self.word(token);
    }

    /// Bytes, and zeros up to a multiple of 4.
    fn padded(&mut self, bytes: &[u8]) {
        self.structure.extend(bytes);
        self.structure.resize(self.structure.len().next_multiple_of(4), 0);
    }

    /// Where a name stands in the strings. It may be the end of a longer one.
    fn name(&mut self, name: &[u8]) -> u32 {
        let ended = [name, &[0]].concat();
        let held = self.strings.windows(ended.len()).position(|bytes| bytes == ended);
        let at = held.unwrap_or(self.strings.len());
        if held.is_none() {
            self.strings.extend(ended);
        }
        at as u32
    }

    fn node(&mut self, node: &Node, before: &mut dyn FnMut(&mut Vec<u8>)) {
        self.token(1, before);
        self.padded(&[&node.name[..], &[0]].concat());
        for (name, value) in &node.properties {
            self.token(3, before);
            self.word(value.len() as u32);
            let name = self.name(name);
            self.word(name);
            self.padded(value);
        }
        for child in &node.children {
            self.node(child, before);
        }
        self.token(2, before);
    }

    /// The blob. Nothing is behind the last block, so that its length need not be a multiple of 4.
    pub fn lay_out(&self, order: Order) -> Vec<u8> {
        let reservations = (RESERVATIONS, 8, &self.reservations);
        let structure = (STRUCTURE, 4, &self.structure);
        let strings = (STRINGS, 1, &self.strings);
        let blocks = match order {
            Order::Usual => [reservations, structure, strings],
            Order::StringsFirst => [reservations, strings, structure],
            Order::StructureFirst => [structure, reservations, strings],
        };
        let mut blob = vec![0; HEADER];
        set_field(&mut blob, 0, 0xd00d_feed);
        set_field(&mut blob, 5, 17);
        set_field(&mut blob, 6, 16);
        set_field(&mut blob, STRINGS_SIZE, self.strings.len() as u32);
        set_field(&mut blob, STRUCTURE_SIZE, self.structure.len() as u32);
        for (offset, align, block) in blocks {
            blob.resize(blob.len().next_multiple_of(align), 0);
            let at = blob.len() as u32;
            set_field(&mut blob, offset, at);
            blob.extend(block);
        }
        let total = blob.len() as u32;
        set_field(&mut blob, TOTAL_SIZE, total);
        blob
    }
}
