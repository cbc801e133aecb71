//! Ours, in place of the crate `fdt`, which could not be had: the names that dtb/mod.rs uses, with their meaning
//! taken from the Devicetree Specification v0.4 and from document 01. So it tells nothing of that crate.
//!
//! A tree is judged before it comes here. This reader trusts its tokens, and panics where they are broken.
use core::marker::PhantomData;

pub mod nodes;
pub mod properties;

use nodes::{Node, NodeId};

pub mod parsing {
    pub mod aligned {
        pub struct AlignedParser<'a>(core::marker::PhantomData<&'a [u32]>);
    }
    pub struct Panic;
}

/// The one way of parsing that dtb/mod.rs asks for.
type Parser<'a> = (parsing::aligned::AlignedParser<'a>, parsing::Panic);

#[derive(Clone, Copy, Debug)]
pub enum FdtError {
    BadPtr,
    BadHeader,
}

/// A token, with what belongs to it.
enum Token<'a> {
    /// A node begins; its name.
    Begin(&'a [u8]),
    End,
    /// A property: name and value.
    Property(&'a [u8], &'a [u8]),
}

#[derive(Clone, Copy)]
struct Blocks<'a> {
    structure: &'a [u8],
    strings: &'a [u8],
}

fn word(bytes: &[u8], at: usize) -> u32 {
    u32::from_be_bytes(bytes[at..at + 4].try_into().unwrap())
}

/// What comes before the first zero byte; none without one.
fn string(bytes: &[u8]) -> Option<&[u8]> {
    bytes.iter().position(|byte| *byte == 0).map(|end| &bytes[..end])
}

impl<'a> Blocks<'a> {
    /// The first token from a place on that is no NOP, and the place after it.
    fn token(self, mut at: usize) -> (Token<'a>, usize) {
        while word(self.structure, at) == 4 {
            at += 4;
        }
        let kind = word(self.structure, at);
        at += 4;
        match kind {
            1 => {
                let name = string(&self.structure[at..]).expect("a name's end");
                (Token::Begin(name), (at + name.len() + 1).next_multiple_of(4))
            }
            2 => (Token::End, at),
            3 => {
                let end = at + 8 + word(self.structure, at) as usize;
                let name = string(&self.strings[word(self.structure, at + 4) as usize..]).expect("a name's end");
                (Token::Property(name, &self.structure[at + 8..end]), end.next_multiple_of(4))
            }
            _ => panic!("token {kind}"),
        }
    }

    /// The value of the property of a name, in the node whose content starts at a place. Of equal names the first
    /// counts.
    fn value(self, content: usize, name: &[u8]) -> Option<&'a [u8]> {
        let mut at = content;
        while let (Token::Property(found, value), next) = self.token(at) {
            if found == name {
                return Some(value);
            }
            at = next;
        }
        None
    }
}

pub struct Fdt<'a, P> {
    blocks: Blocks<'a>,
    total_size: usize,
    parser: PhantomData<P>,
}

impl<'a> Fdt<'a, Parser<'a>> {
    pub fn new(data: &'a [u32]) -> Result<Self, FdtError> {
        let data: &'a [u8] = unsafe { core::slice::from_raw_parts(data.as_ptr().cast(), size_of_val(data)) };
        let field = |i: usize| data.get(4 * i..4 * i + 4).map(|_| word(data, 4 * i) as usize);
        let block = |offset: usize, size: usize| -> Option<&'a [u8]> {
            let start = field(offset)?;
            data.get(start..start + field(size)?)
        };
        let opened = || {
            let total_size = field(1).filter(|total| field(0) == Some(0xd00d_feed) && *total <= data.len())?;
            let blocks = Blocks { structure: block(2, 9)?, strings: block(3, 8)? };
            Some(Self { blocks, total_size, parser: PhantomData })
        };
        opened().ok_or(FdtError::BadHeader)
    }

    pub fn total_size(&self) -> usize {
        self.total_size
    }

    pub fn root(&self) -> Root<'a> {
        let (Token::Begin(name), content) = self.blocks.token(0) else { panic!("no root") };
        Root(Node { blocks: self.blocks, name, content, parent: None, parser: PhantomData })
    }

    pub fn find_node(&self, path: &str) -> Option<Node<'a, Parser<'a>>> {
        self.root().0.at_path(path.as_bytes())
    }

    /// Named by `travel_interrupt_ctrl`, which the memory build never calls.
    pub fn all_nodes(&self) -> core::iter::Empty<(NodeId, Node<'a, Parser<'a>>)> {
        unreachable!()
    }
}

pub struct Root<'a>(Node<'a, Parser<'a>>);

impl<'a> Root<'a> {
    /// A missing model, and one without a zero byte, is the empty text.
    pub fn model(&self) -> Text<'a> {
        Text(self.0.value(b"model").and_then(string).unwrap_or_default())
    }

    pub fn chosen(&self) -> Chosen<'a> {
        Chosen(self.0)
    }
}

/// A string's bytes, which need not be UTF-8.
pub struct Text<'a>(&'a [u8]);

impl Text<'_> {
    pub fn contains(&self, part: &str) -> bool {
        self.0.windows(part.len()).any(|bytes| bytes == part.as_bytes())
    }
}

/// The root, by which /chosen and /aliases are found.
pub struct Chosen<'a>(Node<'a, Parser<'a>>);

pub struct Stdout<'a> {
    pub node: Node<'a, Parser<'a>>,
    pub params: Option<&'a str>,
}

impl<'a> Chosen<'a> {
    /// "`stdout-path` of /chosen up to a colon; from `/` a path, else a name in /aliases whose value is such a path."
    pub fn stdout(&self) -> Option<Stdout<'a>> {
        let named = |node: &[u8], property: &[u8]| string(self.0.step(node)?.value(property)?);
        let path = named(b"chosen", b"stdout-path")?;
        let path = path.split(|byte| *byte == b':').next()?;
        let path = if path.starts_with(b"/") { path } else { named(b"aliases", path)? };
        Some(Stdout { node: self.0.at_path(path)?, params: None })
    }

    /// Named by `fill_env_data`, which the memory build never calls.
    pub fn bootargs(&self) -> Option<&'a str> {
        unreachable!()
    }
}
