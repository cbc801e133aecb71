//! The numbers of random trees: cells, `reg` and `ranges`, with addresses and sizes at the edges of windows and of
//! 2^64.
use crate::blob::Node;
use crate::cases::PAGE;
use crate::choices::Maker;

/// How many cells a number has, as a node states it.
#[derive(Clone, Copy)]
pub enum Count {
    Absent,
    Of(u32),
    /// A property of so many bytes, which are not 4.
    OfLength(usize),
}

impl Count {
    fn value(self) -> Option<Vec<u8>> {
        match self {
            Count::Absent => None,
            Count::Of(cells) => Some(cells.to_be_bytes().into()),
            // A reader that takes the first 4 bytes reads 1.
            Count::OfLength(bytes) => Some([0, 0, 0, 1, 0, 0, 0, 1][..bytes].into()),
        }
    }

    /// The cells that a number is written with, also where nobody can read it.
    fn cells(self, absent: usize) -> usize {
        match self {
            Count::Absent => absent,
            Count::Of(cells @ 0..=3) => cells as usize,
            Count::Of(_) | Count::OfLength(_) => 1,
        }
    }

    fn is_readable(self) -> bool {
        matches!(self, Count::Absent | Count::Of(1 | 2))
    }
}

/// What a node states for its children.
#[derive(Clone, Copy)]
pub struct Cells {
    pub address: Count,
    pub size: Count,
}

impl Cells {
    pub fn state(self, node: &mut Node) {
        for (name, count) in [("#address-cells", self.address), ("#size-cells", self.size)] {
            if let Some(value) = count.value() {
                node.set(name, value);
            }
        }
    }

    pub fn put_address(self, out: &mut Vec<u8>, address: u64) {
        put(out, address, self.address.cells(2));
    }

    pub fn put_size(self, out: &mut Vec<u8>, size: u64) {
        put(out, size, self.size.cells(1));
    }

    /// One more than the largest address; 0 stands for 2^64.
    pub fn top(self) -> u64 {
        if self.address.cells(2) == 1 { 1 << 32 } else { 0 }
    }
}

/// So many cells of a number, the lowest last.
fn put(out: &mut Vec<u8>, number: u64, cells: usize) {
    for cell in (0..cells).rev() {
        let word = if cell < 2 { (number >> (32 * cell)) as u32 } else { 0 };
        out.extend(word.to_be_bytes());
    }
}

/// Whether so many cells hold the number.
fn holds(cells: usize, number: u64) -> bool {
    cells >= 2 || cells == 1 && number >> 32 == 0
}

/// Addresses that lead somewhere.
#[derive(Clone, Copy)]
pub struct Window {
    pub start: u64,
    pub len: u64,
}

#[derive(Clone, Copy)]
enum Shape {
    Absent,
    Empty,
    One,
    Several,
    LeftOver,
}

impl Maker {
    fn count(&mut self) -> Count {
        let length = self.rng.pick(&[0, 3, 5, 8]);
        let more = self.rng.pick(&[4, 0x4000_0001, u32::MAX]);
        self.choose(&[
            (24, "cells: one", Count::Of(1)),
            (28, "cells: two", Count::Of(2)),
            (6, "cells: absent", Count::Absent),
            (1, "cells: zero", Count::Of(0)),
            (1, "cells: three", Count::Of(3)),
            (1, "cells: more", Count::Of(more)),
            (1, "cells: a wrong length", Count::OfLength(length)),
        ])
    }

    pub fn cells(&mut self) -> Cells {
        Cells { address: self.count(), size: self.count() }
    }

    /// An address and a size: at edges of a window, or well inside one.
    fn region(&mut self, cells: Cells, windows: &[Window]) -> [u64; 2] {
        let Window { start, len } = self.rng.pick(windows);
        let fitting = self.fitting;
        if self.choose(&[(fitting, "region: well inside", true), (1, "region: at an edge", false)]) {
            return [start.wrapping_add(len / 2), (len / 4).min(2 * PAGE)];
        }
        let end = start.wrapping_add(len);
        let (name, address) = self.draw(&[
            (1, "address: one below the window", start.wrapping_sub(1)),
            (6, "address: its first", start),
            (1, "address: one above its first", start.wrapping_add(1)),
            (2, "address: 8 before its midst", start.wrapping_add(len / 2).wrapping_sub(8)),
            (4, "address: in its midst", start.wrapping_add(len / 2)),
            (4, "address: 8 before its end", end.wrapping_sub(8)),
            (2, "address: its last", end.wrapping_sub(1)),
            (1, "address: its end", end),
            (1, "address: one past its end", end.wrapping_add(1)),
        ]);
        if holds(cells.address.cells(2), address) {
            self.note(name);
        }
        let left = end.wrapping_sub(address);
        let to_top = address.wrapping_neg();
        let pages = self.rng.below(4) * PAGE;
        let some = self.rng.near(pages);
        let (name, size) = self.draw(&[
            (1, "size: 0", 0),
            (2, "size: 1", 1),
            (3, "size: some pages", some),
            (2, "size: one short of the window's end", left.wrapping_sub(1)),
            (4, "size: up to the window's end", left),
            (4, "size: one past the window's end", left.wrapping_add(1)),
            (3, "size: two past the window's end", left.wrapping_add(2)),
            (1, "size: the window's length", len),
            (1, "size: the window's length and 1", len.wrapping_add(1)),
            (1, "size: one short of 2^64", to_top.wrapping_sub(1)),
            (1, "size: up to 2^64", to_top),
            (1, "size: one past 2^64", to_top.wrapping_add(1)),
            (1, "size: 2^64 - 1", u64::MAX),
        ]);
        if holds(cells.size.cells(1), size) {
            self.note(name);
        }
        [address, size]
    }

    /// Bytes more or fewer, so that a row is not whole.
    pub fn leave_over(&mut self, value: &mut Vec<u8>) {
        let more = self.rng.pick(&[1, 3, 4, 8]);
        let fewer = self.rng.pick(&[1, 4]);
        let len = if self.rng.one_in(2) { value.len() + more } else { value.len().saturating_sub(fewer) };
        value.resize(len, 0);
    }

    /// The value of `reg` below a node with these cells.
    pub fn reg(&mut self, cells: Cells, windows: &[Window]) -> Option<Vec<u8>> {
        let shape = self.choose(&[
            (2, "reg: absent", Shape::Absent),
            (2, "reg: empty", Shape::Empty),
            (20, "reg: one entry", Shape::One),
            (6, "reg: several entries", Shape::Several),
            (2, "reg: bytes left over", Shape::LeftOver),
        ]);
        let entries = match shape {
            Shape::Absent => return None,
            Shape::Empty => return Some(Vec::new()),
            Shape::One => 1,
            Shape::Several | Shape::LeftOver => 2 + self.rng.below(3),
        };
        let mut value = Vec::new();
        for _ in 0..entries {
            let [address, size] = self.region(cells, windows);
            cells.put_address(&mut value, address);
            cells.put_size(&mut value, size);
        }
        if let Shape::LeftOver = shape {
            self.leave_over(&mut value);
        }
        let readable = [cells.address, cells.size].iter().all(|count| count.is_readable());
        if !readable && !value.is_empty() {
            self.note("reg: unreadable cells");
        }
        Some(value)
    }

    /// A range of a bus with these cells: its child's window, and the address outside to which that leads.
    fn range(&mut self, own: Cells, outer: &[Window], held: &[Window]) -> (Window, u64) {
        let out = self.rng.pick(outer);
        let fitting = self.fitting;
        if self.choose(&[(fitting, "range: well inside its outer window", true), (1, "range: at an edge", false)]) {
            let start = self.rng.pick(&[0, 16 * PAGE]);
            return (Window { start, len: out.len / 2 }, out.start.wrapping_add(out.len / 4));
        }
        let end = out.start.wrapping_add(out.len);
        let len = self.choose(&[
            (6, "range: of a page", PAGE),
            (3, "range: of many pages", 256 * PAGE),
            (1, "range: of length 0", 0),
            (1, "range: of length 1", 1),
            (3, "range: as long as its outer window", out.len),
            (1, "range: one longer than its outer window", out.len.wrapping_add(1)),
            (1, "range: of length 2^64 - 1", u64::MAX),
        ]);
        let same = held.last().map_or(0, |window| window.start);
        let start = self.choose(&[
            (6, "range: from 0", 0),
            (3, "range: from a page", 16 * PAGE),
            (3, "range: up to the largest address", own.top().wrapping_sub(len)),
            (1, "range: past the largest address", own.top().wrapping_sub(len / 2)),
            (2, "range: from where the last one is", same),
            (1, "range: from one past the last one", same.wrapping_add(1)),
        ]);
        let to = self.choose(&[
            (8, "range: to its outer window's start", out.start),
            (3, "range: to its outer window's midst", out.start.wrapping_add(out.len / 2)),
            (3, "range: up to its outer window's end", end.wrapping_sub(len)),
            (1, "range: past its outer window's end", end.wrapping_sub(len).wrapping_add(1)),
            (1, "range: up to 2^64", len.wrapping_neg()),
            (1, "range: one past 2^64", len.wrapping_neg().wrapping_add(1)),
            (1, "range: far past 2^64", (len / 2).wrapping_neg()),
        ]);
        (Window { start, len }, to)
    }

    /// The value of `ranges` of a bus with these cells, and the windows for its children.
    pub fn ranges(&mut self, own: Cells, parent: Cells, outer: &[Window]) -> (Option<Vec<u8>>, Vec<Window>) {
        let shape = self.choose(&[
            (1, "ranges: absent", Shape::Absent),
            (4, "ranges: empty", Shape::Empty),
            (12, "ranges: one entry", Shape::One),
            (8, "ranges: several entries", Shape::Several),
            (1, "ranges: bytes left over", Shape::LeftOver),
        ]);
        let entries = match shape {
            Shape::Absent => return (None, outer.to_vec()),
            Shape::Empty => return (Some(Vec::new()), outer.to_vec()),
            Shape::One => 1,
            Shape::Several | Shape::LeftOver => 2 + self.rng.below(3),
        };
        let (mut value, mut windows) = (Vec::new(), Vec::new());
        for _ in 0..entries {
            let (window, to) = self.range(own, outer, &windows);
            own.put_address(&mut value, window.start);
            parent.put_address(&mut value, to);
            own.put_size(&mut value, window.len);
            windows.push(window);
        }
        if let Shape::LeftOver = shape {
            self.leave_over(&mut value);
        }
        let readable = [own.address, parent.address, own.size].iter().all(|count| count.is_readable());
        if !readable && !value.is_empty() {
            self.note("ranges: unreadable cells");
        }
        (Some(value), windows)
    }
}
