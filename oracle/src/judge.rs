//! Which bytes are a tree: document 01's numbers 4, 5 and 6, read from its words alone. It shares nothing with the
//! stand-in for the crate `fdt`, which trusts that a tree was judged here.

pub const BAD_HEADER: u64 = 4;
pub const BAD_STRUCTURE: u64 = 5;
pub const OVER_LIMIT: u64 = 6;

const BYTES: u64 = 1_048_576;
const LEVELS: usize = 32;
const NODES: usize = 4096;

/// Nothing where the bytes are a tree, else the number of the refusal. No bytes at all are for the caller.
pub fn judge(tree: &[u8]) -> Result<(), u64> {
    let (structure, strings) = blocks(tree).ok_or(BAD_HEADER)?;
    if u64::from(word(tree, 4).ok_or(BAD_HEADER)?) > BYTES {
        return Err(OVER_LIMIT);
    }
    Walk { structure, strings, at: 0, nodes: 0 }.tree()
}

fn word(bytes: &[u8], at: usize) -> Option<u32> {
    bytes.get(at..)?.first_chunk().map(|four| u32::from_be_bytes(*four))
}

/// The structure and the strings block, where the header is whole and sound.
fn blocks(tree: &[u8]) -> Option<(&[u8], &[u8])> {
    let mut fields = [0; 10];
    for (i, field) in fields.iter_mut().enumerate() {
        *field = word(tree, 4 * i)? as usize;
    }
    let [magic, total, structure, strings, _, version, compatible, _, strings_size, structure_size] = fields;
    let inside = |offset: usize, size: usize| {
        let bytes = tree.get(..total)?.get(offset..offset + size)?;
        (offset >= 40).then_some(bytes)
    };
    let sound = magic == 0xd00d_feed && total >= 40 && version >= 17 && compatible <= 17 && structure % 4 == 0;
    Some((inside(structure, structure_size)?, inside(strings, strings_size)?)).filter(|_| sound)
}

/// Reads the structure block by its grammar, a call for each node. At a token 5 comes before 6, so the limits are
/// looked at last.
struct Walk<'a> {
    structure: &'a [u8],
    strings: &'a [u8],
    at: usize,
    nodes: usize,
}

impl Walk<'_> {
    fn tree(&mut self) -> Result<(), u64> {
        if self.token()? != 1 {
            return Err(BAD_STRUCTURE);
        }
        self.node(1)?;
        let last = self.token()? == 9 && self.at == self.structure.len();
        last.then_some(()).ok_or(BAD_STRUCTURE)
    }

    fn word(&mut self) -> Result<usize, u64> {
        let word = word(self.structure, self.at).ok_or(BAD_STRUCTURE)?;
        self.at += 4;
        Ok(word as usize)
    }

    /// The next token that is no NOP.
    fn token(&mut self) -> Result<usize, u64> {
        loop {
            let token = self.word()?;
            if token != 4 {
                return Ok(token);
            }
        }
    }

    /// Goes on by so many bytes, and to the next multiple of 4. The padding itself may be missing: then the next
    /// token is.
    fn pass(&mut self, bytes: usize) -> Result<(), u64> {
        self.at += bytes;
        if self.at > self.structure.len() {
            return Err(BAD_STRUCTURE);
        }
        self.at = self.at.next_multiple_of(4);
        Ok(())
    }

    /// The rest of a node whose first token is read.
    fn node(&mut self, level: usize) -> Result<(), u64> {
        let rest = &self.structure[self.at..];
        let name = rest.iter().position(|byte| *byte == 0).ok_or(BAD_STRUCTURE)?;
        if level == 1 && name > 0 {
            return Err(BAD_STRUCTURE);
        }
        self.nodes += 1;
        if level > LEVELS || self.nodes > NODES {
            return Err(OVER_LIMIT);
        }
        self.pass(name + 1)?;
        let mut token = self.token()?;
        while token == 3 {
            self.property()?;
            token = self.token()?;
        }
        while token == 1 {
            self.node(level + 1)?;
            token = self.token()?;
        }
        (token == 2).then_some(()).ok_or(BAD_STRUCTURE)
    }

    /// The rest of a property whose token is read.
    fn property(&mut self) -> Result<(), u64> {
        let (length, name) = (self.word()?, self.word()?);
        let ended = self.strings.get(name..).is_some_and(|rest| rest.contains(&0));
        self.pass(length)?;
        ended.then_some(()).ok_or(BAD_STRUCTURE)
    }
}
