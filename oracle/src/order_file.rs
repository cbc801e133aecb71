//! The order file of document 01: what one says, its bytes, and which bytes keep its layout.
use crate::rust::Claim;

pub const BAD_ORDER: u64 = 9;

/// The most bytes that a file may have.
pub const LARGEST: usize = 65_536;
/// Bytes before the list.
pub const HEAD: usize = 112;
/// Bytes of an entry of the list.
pub const ENTRY: usize = 24;

/// Where fields stand.
pub const VERSION: usize = 3;
pub const FLAGS: usize = 5;
pub const LIST_COUNT: usize = 6;
pub const LOW: usize = 8;
pub const HIGH: usize = 16;
pub const TREE_LENGTH: usize = 104;
pub const ZEROS: usize = 108;

/// Flags.
const ARM: u8 = 1;
const HAS_LOW: u8 = 2;
const HAS_HIGH: u8 = 4;

#[derive(Clone, Default)]
pub struct OrderFile {
    pub arm: bool,
    pub low: Option<u64>,
    pub high: Option<u64>,
    /// Base and size of each: kernel, env, hwdesc, bootstrap, stack.
    pub pairs: [[u64; 2]; 5],
    pub list: Vec<Claim>,
    pub tree: Vec<u8>,
}

impl OrderFile {
    pub fn bytes(&self) -> Vec<u8> {
        let flag = |given: bool, flag: u8| if given { flag } else { 0 };
        let flags = flag(self.arm, ARM) | flag(self.low.is_some(), HAS_LOW) | flag(self.high.is_some(), HAS_HIGH);
        let mut out = b"GBO\x01\x00".to_vec();
        out.push(flags);
        out.extend((self.list.len() as u16).to_le_bytes());
        for limit in [self.low, self.high] {
            out.extend(limit.unwrap_or(0).to_le_bytes());
        }
        out.extend(self.pairs.as_flattened().iter().flat_map(|number| number.to_le_bytes()));
        out.extend((self.tree.len() as u32).to_le_bytes());
        out.extend([0; 4]);
        out.extend(self.list.as_flattened().iter().flat_map(|number| number.to_le_bytes()));
        out.extend(&self.tree);
        out
    }

    /// What a file says, where it keeps the layout. Byte after byte is taken, and none may be left.
    pub fn read(file: &[u8]) -> Option<Self> {
        let mut left = Some(file).filter(|file| file.len() <= LARGEST)?;
        let mut take = |bytes: usize| left.split_off(..bytes);
        let sound = take(3)? == b"GBO" && number(take(2)?) == 1;
        let flags = number(take(1)?) as u8;
        let count = number(take(2)?) as usize;
        let low = limit(flags & HAS_LOW != 0, number(take(8)?))?;
        let high = limit(flags & HAS_HIGH != 0, number(take(8)?))?;
        let mut pairs = [[0; 2]; 5];
        for place in pairs.as_flattened_mut() {
            *place = number(take(8)?);
        }
        let length = number(take(4)?) as usize;
        let zeros = number(take(4)?) == 0;
        let list = take(ENTRY * count)?.chunks(ENTRY).map(entry).collect();
        let tree = take(length)?.to_vec();
        let order = Self { arm: flags & ARM != 0, low, high, pairs, list, tree };
        (sound && zeros && flags < 8 && left.is_empty()).then_some(order)
    }
}

/// How many bytes of an input are its order file: as many as the header says, or all where there are not so many.
pub fn end(input: &[u8]) -> usize {
    if input.len() < HEAD {
        return input.len();
    }
    let count = number(&input[LIST_COUNT..LOW]) as usize;
    let length = number(&input[TREE_LENGTH..ZEROS]) as usize;
    input.len().min(HEAD + ENTRY * count + length)
}

/// The number in some bytes, the lowest first.
fn number(bytes: &[u8]) -> u64 {
    bytes.iter().rev().fold(0, |number, byte| number << 8 | u64::from(*byte))
}

pub fn entry(bytes: &[u8]) -> Claim {
    [0, 8, 16].map(|at| number(&bytes[at..at + 8]))
}

/// A limit, which may be missing. One that is not flagged must be 0.
fn limit(flagged: bool, number: u64) -> Option<Option<u64>> {
    (flagged || number == 0).then_some(flagged.then_some(number))
}
