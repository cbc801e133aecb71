use crate::Parser;
use crate::nodes::Node;

pub trait Property<'a>: Sized {
    fn read(node: &Node<'a, Parser<'a>>) -> Option<Self>;
}

/// "Cells are 4-byte properties": another length states nothing.
fn cell(value: &[u8]) -> Option<usize> {
    Some(u32::from_be_bytes(value.try_into().ok()?) as usize)
}

/// "`status` is absent or `okay` with its zero byte": the value is compared as a whole.
#[derive(PartialEq, Eq)]
pub struct Status<'a>(&'a [u8]);

impl<'a> Status<'a> {
    pub const OKAY: Status<'a> = Status(b"okay\0");
}

impl<'a> Property<'a> for Status<'a> {
    fn read(node: &Node<'a, Parser<'a>>) -> Option<Self> {
        node.value(b"status").map(Status)
    }
}

/// It is asked for its presence alone.
pub struct Compatible<'a>(&'a [u8]);

impl<'a> Compatible<'a> {
    /// For log lines alone.
    pub fn first(&self) -> &'a str {
        core::str::from_utf8(self.0).unwrap_or("?")
    }
}

impl<'a> Property<'a> for Compatible<'a> {
    fn read(node: &Node<'a, Parser<'a>>) -> Option<Self> {
        node.value(b"compatible").map(Compatible)
    }
}

pub struct PHandle(u32);

impl PHandle {
    pub fn as_u32(&self) -> u32 {
        self.0
    }
}

impl<'a> Property<'a> for PHandle {
    fn read(node: &Node<'a, Parser<'a>>) -> Option<Self> {
        cell(node.value(b"phandle")?).map(|handle| PHandle(handle as u32))
    }
}

pub mod cells {
    use super::{Node, Parser, Property, cell};

    pub struct AddressCells(pub usize);
    pub struct SizeCells(pub usize);

    #[derive(Clone, Copy)]
    pub struct CellSizes {
        pub address_cells: usize,
        pub size_cells: usize,
    }

    impl<'a> Property<'a> for AddressCells {
        fn read(node: &Node<'a, Parser<'a>>) -> Option<Self> {
            cell(node.value(b"#address-cells")?).map(AddressCells)
        }
    }

    impl<'a> Property<'a> for SizeCells {
        fn read(node: &Node<'a, Parser<'a>>) -> Option<Self> {
            cell(node.value(b"#size-cells")?).map(SizeCells)
        }
    }
}

/// The rows of numbers in `reg` and `ranges`.
mod rows {
    use super::{Node, Parser, cell};

    /// How many bytes a number takes by the cells that the node with this content states; none where they cannot be
    /// read. "Absent means 2 address cells, 1 size cell."
    pub fn address_width(node: &Node<'_, Parser<'_>>, content: usize) -> Option<usize> {
        width(node.blocks.value(content, b"#address-cells"), 2)
    }

    pub fn size_width(node: &Node<'_, Parser<'_>>, content: usize) -> Option<usize> {
        width(node.blocks.value(content, b"#size-cells"), 1)
    }

    fn width(stated: Option<&[u8]>, absent: usize) -> Option<usize> {
        match stated.map_or(Some(absent), cell)? {
            count @ (1 | 2) => Some(4 * count),
            _ => None,
        }
    }

    #[derive(Clone, Copy)]
    pub struct Rows<'a, const N: usize> {
        /// What is left of the value.
        value: &'a [u8],
        /// The bytes of each number of a row; none where the value is unreadable.
        widths: Option<[usize; N]>,
    }

    impl<'a, const N: usize> Rows<'a, N> {
        /// "A nonempty `reg` or `ranges` is unreadable if a cell count is not 1 or 2, a governing cell property is not
        /// 4 bytes, or bytes are left over."
        pub fn new(value: &'a [u8], widths: [Option<usize>; N]) -> Self {
            let whole = |widths: &[usize; N]| value.len().is_multiple_of(widths.iter().sum());
            let known = widths.iter().all(Option::is_some);
            Self { value, widths: known.then(|| widths.map(Option::unwrap)).filter(whole) }
        }
    }

    /// The rows one by one. An unreadable value gives a single error, "length 0 is never unreadable".
    impl<const N: usize> Iterator for Rows<'_, N> {
        type Item = Result<[usize; N], ()>;

        fn next(&mut self) -> Option<Self::Item> {
            if self.value.is_empty() {
                return None;
            }
            let Some(widths) = self.widths else {
                self.value = &[];
                return Some(Err(()));
            };
            Some(Ok(widths.map(|width| {
                let (number, rest) = self.value.split_at(width);
                self.value = rest;
                number.iter().fold(0, |sum, byte| sum << 8 | usize::from(*byte))
            })))
        }
    }
}

/// dtb/mod.rs asks for every number as `usize`.
pub trait Number {
    fn of(number: usize) -> Self;
}

impl Number for usize {
    fn of(number: usize) -> Self {
        number
    }
}

pub mod reg {
    use super::rows::{Rows, address_width, size_width};
    use super::{Node, Number, Parser, Property};

    /// Its name tells the harness which unwrap of the Rust has panicked.
    #[derive(Clone, Copy, Debug)]
    pub struct UnreadableReg;

    #[derive(Clone, Copy)]
    pub struct RegEntry<A, S> {
        pub address: A,
        pub len: S,
    }

    pub struct Reg<'a>(Rows<'a, 2>);

    /// "`reg` uses the parent's cells". The root has no parent, and so none.
    impl<'a> Property<'a> for Reg<'a> {
        fn read(node: &Node<'a, Parser<'a>>) -> Option<Self> {
            let parent = node.parent?;
            Some(Self(Rows::new(node.value(b"reg")?, [address_width(node, parent), size_width(node, parent)])))
        }
    }

    impl<'a> Reg<'a> {
        pub fn iter<A: Number, S: Number>(
            &self,
        ) -> impl Iterator<Item = Result<RegEntry<A, S>, UnreadableReg>> + use<'a, A, S> {
            let entry = |[address, len]: [usize; 2]| RegEntry { address: A::of(address), len: S::of(len) };
            self.0.map(move |row| row.map(entry).map_err(|()| UnreadableReg))
        }
    }
}

pub mod ranges {
    use super::rows::{Rows, address_width, size_width};
    use super::{Node, Number, Parser, Property};

    /// Its name tells the harness which unwrap of the Rust has panicked.
    #[derive(Clone, Copy, Debug)]
    pub struct UnreadableRanges;

    #[derive(Clone, Copy)]
    pub struct Range<C, P, S> {
        pub child_bus_address: C,
        pub parent_bus_address: P,
        pub len: S,
    }

    pub struct Ranges<'a>(Rows<'a, 3>);

    /// "`ranges` has child address and size by the bus's own cells, parent address by its parent's."
    impl<'a> Property<'a> for Ranges<'a> {
        fn read(node: &Node<'a, Parser<'a>>) -> Option<Self> {
            let (own, parent) = (node.content, node.parent?);
            let widths = [address_width(node, own), address_width(node, parent), size_width(node, own)];
            Some(Self(Rows::new(node.value(b"ranges")?, widths)))
        }
    }

    impl<'a> Ranges<'a> {
        pub fn iter<C: Number, P: Number, S: Number>(
            &self,
        ) -> impl Iterator<Item = Result<Range<C, P, S>, UnreadableRanges>> + use<'a, C, P, S> {
            let range = |[child, parent, len]: [usize; 3]| Range {
                child_bus_address: C::of(child),
                parent_bus_address: P::of(parent),
                len: S::of(len),
            };
            self.0.map(move |row| row.map(range).map_err(|()| UnreadableRanges))
        }
    }
}

pub mod interrupts {
    use super::{Node, Parser, Property};
    use core::convert::Infallible;
    use core::marker::PhantomData;
    use core::ops::Deref;

    /// It is asked for its presence alone.
    pub struct InterruptController;

    impl<'a> Property<'a> for InterruptController {
        fn read(node: &Node<'a, Parser<'a>>) -> Option<Self> {
            node.value(b"interrupt-controller").map(|_| InterruptController)
        }
    }

    // The rest is named by functions that the memory build never calls, and is here to be type checked.

    pub struct InterruptCells(pub usize);

    impl<'a> Property<'a> for InterruptCells {
        fn read(_node: &Node<'a, Parser<'a>>) -> Option<Self> {
            unreachable!()
        }
    }

    pub struct InterruptParent<'a>(Infallible, PhantomData<&'a ()>);

    impl<'a> Deref for InterruptParent<'a> {
        type Target = Node<'a, Parser<'a>>;

        fn deref(&self) -> &Self::Target {
            match self.0 {}
        }
    }

    impl<'a> Property<'a> for InterruptParent<'a> {
        fn read(_node: &Node<'a, Parser<'a>>) -> Option<Self> {
            unreachable!()
        }
    }
}
