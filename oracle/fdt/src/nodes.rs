use crate::properties::{Property, ranges::Ranges, reg::Reg};
use crate::{Blocks, Parser, Token};
use core::marker::PhantomData;
use core::sync::atomic::{AtomicUsize, Ordering::Relaxed};

/// Where a node's content starts: no two nodes share it.
#[derive(Clone, Copy, PartialEq)]
pub struct NodeId(usize);

/// How often an id was asked for: twice for each node that the Rust tries as its target.
pub static ASKED: AtomicUsize = AtomicUsize::new(0);

pub struct Node<'a, P> {
    pub(crate) blocks: Blocks<'a>,
    pub(crate) name: &'a [u8],
    /// Where its properties and children start.
    pub(crate) content: usize,
    /// The same of its parent; none of the root.
    pub(crate) parent: Option<usize>,
    pub(crate) parser: PhantomData<P>,
}

impl<P> Clone for Node<'_, P> {
    fn clone(&self) -> Self {
        *self
    }
}

impl<P> Copy for Node<'_, P> {}

pub struct RawProperty<'a> {
    pub value: &'a [u8],
}

impl<'a> Node<'a, Parser<'a>> {
    pub fn id(&self) -> NodeId {
        // The harness has one thread.
        ASKED.store(ASKED.load(Relaxed) + 1, Relaxed);
        NodeId(self.content)
    }

    /// For log lines alone.
    pub fn name(&self) -> &'a str {
        core::str::from_utf8(self.name).unwrap_or("?")
    }

    pub(crate) fn value(&self, name: &[u8]) -> Option<&'a [u8]> {
        self.blocks.value(self.content, name)
    }

    pub fn raw_property(&self, name: &str) -> Option<RawProperty<'a>> {
        self.value(name.as_bytes()).map(|value| RawProperty { value })
    }

    pub fn property<T: Property<'a>>(&self) -> Option<T> {
        T::read(self)
    }

    pub fn reg(&self) -> Option<Reg<'a>> {
        self.property()
    }

    pub fn ranges(&self) -> Option<Ranges<'a>> {
        self.property()
    }

    pub fn children(&self) -> Children<'a> {
        Children(*self)
    }

    /// "A path step takes the first child whose whole name, or part before `@`, equals it." An empty one finds
    /// nothing.
    pub(crate) fn step(&self, step: &[u8]) -> Option<Self> {
        let is_it = |child: &Self| child.name == step || child.name.split(|byte| *byte == b'@').next() == Some(step);
        self.children().iter().find(|child| !step.is_empty() && is_it(child))
    }

    /// A path from the root, which this node has to be. "`/` alone is the root".
    pub(crate) fn at_path(&self, path: &[u8]) -> Option<Self> {
        match path.strip_prefix(b"/")? {
            [] => Some(*self),
            steps => steps.split(|byte| *byte == b'/').try_fold(*self, |node, step| node.step(step)),
        }
    }
}

pub struct Children<'a>(Node<'a, Parser<'a>>);

impl<'a> Children<'a> {
    pub fn iter(&self) -> ChildIter<'a> {
        ChildIter { parent: self.0, at: self.0.content }
    }
}

impl<'a> IntoIterator for Children<'a> {
    type Item = Node<'a, Parser<'a>>;
    type IntoIter = ChildIter<'a>;

    fn into_iter(self) -> ChildIter<'a> {
        self.iter()
    }
}

pub struct ChildIter<'a> {
    parent: Node<'a, Parser<'a>>,
    /// In the parent's own content, outside any child.
    at: usize,
}

impl<'a> ChildIter<'a> {
    /// The place after the node whose content starts at a place.
    fn past(&self, content: usize) -> usize {
        let (mut at, mut open) = (content, 1);
        while open > 0 {
            let (token, next) = self.parent.blocks.token(at);
            match token {
                Token::Begin(_) => open += 1,
                Token::End => open -= 1,
                Token::Property(..) => {}
            }
            at = next;
        }
        at
    }
}

impl<'a> Iterator for ChildIter<'a> {
    type Item = Node<'a, Parser<'a>>;

    fn next(&mut self) -> Option<Self::Item> {
        loop {
            match self.parent.blocks.token(self.at) {
                (Token::Begin(name), content) => {
                    self.at = self.past(content);
                    return Some(Node { name, content, parent: Some(self.parent.content), ..self.parent });
                }
                (Token::End, _) => return None,
                (Token::Property(..), next) => self.at = next,
            }
        }
    }
}
