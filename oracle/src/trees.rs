//! Random trees that dwell on what a tree's claims turn on.
use crate::blob::{Node, Order};
use crate::cases::{PAGE, T};
use crate::choices::Maker;
use crate::values::{Cells, Count, Window};

#[derive(Clone, Copy)]
enum Dynamic {
    Exact,
    OtherSize,
    TwoRanges,
    NoRanges,
    Zero,
    Fits,
    TooFar,
    OddSize,
    OddRange,
}

#[derive(Clone, Copy)]
enum Stdout {
    Path,
    Alias,
    NoChosen,
    Missing,
    NoNode,
    SlashBehind,
    TwoSlashes,
    Root,
    Empty,
    NoAlias,
    AliasOfAlias,
}

const DEVICES: [&str; 9] =
    ["serial@1000", "serial@2000", "uart@0", "serial", "timer@10", "a@b@c", "eth", "serial@", "@1"];
const BUSES: [&str; 5] = ["bus@0", "bus@1", "axi", "bus", "soc"];

impl Maker {
    fn set_reg(&mut self, node: &mut Node, cells: Cells, windows: &[Window]) {
        if let Some(reg) = self.reg(cells, windows) {
            node.set("reg", reg);
        }
    }

    fn set_compatible(&mut self, node: &mut Node) {
        if !self.maybe("compatible: missing", 8) {
            node.set("compatible", *b"some,device\0");
        }
    }

    fn device(&mut self, cells: Cells, windows: &[Window]) -> Node {
        let mut node = Node::new(self.rng.pick(&DEVICES));
        self.set_compatible(&mut node);
        self.set_reg(&mut node, cells, windows);
        // No rule looks at these two here.
        if self.rng.one_in(8) {
            node.set("status", *b"disabled\0");
        }
        if self.rng.one_in(8) {
            node.set("interrupt-controller", []);
        }
        node
    }

    /// A bus, with buses in it down to so many levels.
    fn bus(&mut self, name: &str, below: usize, parent: Cells, outer: &[Window]) -> Node {
        let own = self.cells();
        let (ranges, windows) = self.ranges(own, parent, outer);
        let mut node = Node::new(name);
        own.state(&mut node);
        if let Some(ranges) = ranges {
            node.set("ranges", ranges);
        }
        if self.maybe("bus: has a reg", 4) {
            self.set_compatible(&mut node);
            self.set_reg(&mut node, parent, outer);
        }
        for _ in 0..=self.rng.below(3) {
            node.children.push(self.device(own, &windows));
        }
        if below > 0 && self.rng.below(3) > 0 {
            let name = self.rng.pick(&BUSES);
            node.children.push(self.bus(name, below - 1, own, &windows));
        }
        self.rng.shuffle(&mut node.children);
        node
    }

    fn set_status(&mut self, node: &mut Node) {
        let value: Option<&[u8]> = self.choose(&[
            (8, "status: absent", None),
            (4, "status: okay", Some(b"okay\0")),
            (1, "status: ok", Some(b"ok\0")),
            (1, "status: disabled", Some(b"disabled\0")),
            (1, "status: okay without its zero byte", Some(b"okay")),
            (1, "status: okay and a byte behind it", Some(b"okay\0\0")),
            (1, "status: empty", Some(b"")),
        ]);
        if let Some(value) = value {
            node.set("status", value);
        }
    }

    /// Gives a child of /reserved-memory a `size`, and ranges that leave a choice of the place or none.
    fn set_dynamic(&mut self, node: &mut Node, cells: Cells, windows: &[Window]) {
        let how = self.choose(&[
            (6, "dynamic: exact", Dynamic::Exact),
            (1, "dynamic: a range of another size", Dynamic::OtherSize),
            (1, "dynamic: two ranges", Dynamic::TwoRanges),
            (1, "dynamic: no ranges", Dynamic::NoRanges),
            (1, "dynamic: size 0", Dynamic::Zero),
            (1, "dynamic: a sum of 2^64 - 1", Dynamic::Fits),
            (1, "dynamic: a sum of 2^64", Dynamic::TooFar),
            (1, "dynamic: a size of a wrong length", Dynamic::OddSize),
            (1, "dynamic: a range of a wrong length", Dynamic::OddRange),
        ]);
        let start = self.rng.pick(windows).start;
        let pages = (1 + self.rng.below(4)) * PAGE;
        let (address, size) = match how {
            Dynamic::Zero => (start, 0),
            Dynamic::Fits => (pages.wrapping_neg(), pages - 1),
            Dynamic::TooFar => (pages.wrapping_neg(), pages),
            _ => (start, pages),
        };
        let other = self.rng.pick(&[size + 1, size + PAGE, size.saturating_sub(1), size / 2]);
        let in_range = if let Dynamic::OtherSize = how { other } else { size };
        let (mut value, mut range) = (Vec::new(), Vec::new());
        cells.put_size(&mut value, size);
        cells.put_address(&mut range, address);
        cells.put_size(&mut range, in_range);
        match how {
            Dynamic::TwoRanges => range = range.repeat(2),
            Dynamic::OddSize => self.leave_over(&mut value),
            Dynamic::OddRange => self.leave_over(&mut range),
            _ => {}
        }
        node.set("size", value);
        if !matches!(how, Dynamic::NoRanges) {
            node.set("alloc-ranges", range);
        }
    }

    fn reserved_memory(&mut self, root: Cells, windows: &[Window]) -> Node {
        let mut node = Node::new(self.rng.pick(&["reserved-memory", "reserved-memory", "reserved-memory@1"]));
        let other = self.cells();
        let cells = self.choose(&[(12, "reserved: the root's cells", root), (1, "reserved: other cells", other)]);
        cells.state(&mut node);
        let ranges: Option<&[u8]> = self.choose(&[
            (16, "reserved: empty ranges", Some(b"")),
            (1, "reserved: no ranges", None),
            (1, "reserved: ranges", Some(&[0; 24])),
            (1, "reserved: unreadable ranges", Some(&[0; 7])),
        ]);
        if let Some(ranges) = ranges {
            node.set("ranges", ranges);
        }
        for _ in 0..self.rng.below(5) {
            let mut child = Node::new(self.rng.pick(&["pool", "pool@1", "fixed@2"]));
            self.set_status(&mut child);
            let (reg, size) = self.choose(&[
                (6, "reserved: reg", (true, false)),
                (4, "reserved: size", (false, true)),
                (2, "reserved: reg and size", (true, true)),
                (1, "reserved: neither", (false, false)),
            ]);
            if reg {
                self.set_reg(&mut child, cells, windows);
            }
            if size {
                self.set_dynamic(&mut child, cells, windows);
            }
            // Only children count, and not their own.
            if self.rng.one_in(8) {
                child.children.push(self.device(cells, windows));
            }
            node.children.push(child);
        }
        node
    }

    fn controller(&mut self, cells: Cells, windows: &[Window]) -> Node {
        let mut node = self.device(cells, windows);
        node.name = self.rng.pick(&["gic@1", "interrupt-controller", "gic@2"]).into();
        node.set("interrupt-controller", self.rng.pick(&[&b""[..], b"x"]));
        node
    }

    /// A string's value, which nearly always ends in its only zero byte.
    fn text(&mut self, text: &[u8]) -> Vec<u8> {
        let end: &[u8] = self.choose(&[
            (14, "string: one zero byte", b"\0"),
            (1, "string: no zero byte", b""),
            (1, "string: bytes behind its zero byte", b"\0x\0"),
        ]);
        [text, end].concat()
    }

    fn set_model(&mut self, root: &mut Node) {
        let model: Option<&[u8]> = self.choose(&[
            (3, "model: missing", None),
            (6, "model: some board", Some(b"some,board")),
            (3, "model: linux,dummy-virt", Some(b"linux,dummy-virt")),
            (1, "model: linux,dummy-virt and more", Some(b"a linux,dummy-virt b")),
            (1, "model: nearly linux,dummy-virt", Some(b"linux,dummy-vir")),
            (1, "model: linux,dummy-virt behind a zero byte", Some(b"board\0linux,dummy-virt")),
        ]);
        if let Some(model) = model {
            let model = self.text(model);
            root.set("model", model);
        }
    }

    /// A path to one of the nodes, mostly one with `reg`.
    fn path(&mut self, root: &Node) -> Vec<u8> {
        let mut all = Vec::new();
        paths(root, &mut Vec::new(), &mut all);
        if self.rng.below(8) > 0 && all.iter().any(|(_, has_reg)| *has_reg) {
            all.retain(|(_, has_reg)| *has_reg);
        }
        if all.is_empty() {
            return b"/nothing".into();
        }
        let (steps, _) = &all[self.place(all.len())];
        self.note(match steps.len() {
            1 => "stdout: below the root",
            2 => "stdout: below 1 bus",
            3 => "stdout: below 2 buses",
            4 => "stdout: below 3 buses",
            _ => "stdout: below 4 buses",
        });
        let left_out = self.choose(&[
            (3, "stdout: whole names", 0),
            (1, "stdout: some unit addresses left out", 1),
            (2, "stdout: unit addresses left out", 2),
        ]);
        let mut path = Vec::new();
        for step in steps {
            let unit = step.iter().position(|byte| *byte == b'@').unwrap_or(step.len());
            let end = if self.rng.below(2) < left_out { unit } else { step.len() };
            path.push(b'/');
            path.extend(&step[..end]);
        }
        path
    }

    /// Puts /chosen and /aliases into a tree that is otherwise whole.
    fn set_stdout(&mut self, root: &mut Node) {
        let path = self.path(root);
        let how = self.choose(&[
            (12, "stdout: a path", Stdout::Path),
            (8, "stdout: an alias", Stdout::Alias),
            (1, "stdout: no /chosen", Stdout::NoChosen),
            (1, "stdout: missing", Stdout::Missing),
            (1, "stdout: no such node", Stdout::NoNode),
            (1, "stdout: a slash behind", Stdout::SlashBehind),
            (1, "stdout: two slashes", Stdout::TwoSlashes),
            (1, "stdout: the root", Stdout::Root),
            (1, "stdout: empty", Stdout::Empty),
            (1, "stdout: an unknown alias", Stdout::NoAlias),
            (1, "stdout: an alias of an alias", Stdout::AliasOfAlias),
        ]);
        let stdout = match how {
            Stdout::Path => path.clone(),
            Stdout::Alias | Stdout::NoChosen | Stdout::Missing => b"serial0".to_vec(),
            Stdout::NoNode => [&path[..], b"x"].concat(),
            Stdout::SlashBehind => [&path[..], b"/"].concat(),
            Stdout::TwoSlashes => [b"/", &path[..]].concat(),
            Stdout::Root => b"/".to_vec(),
            Stdout::Empty => Vec::new(),
            Stdout::NoAlias => b"serial".to_vec(),
            Stdout::AliasOfAlias => b"serial1".to_vec(),
        };
        let options: &[u8] = self.choose(&[
            (3, "stdout: no options", b""),
            (2, "stdout: options", b":115200n8"),
            (1, "stdout: a colon alone", b":"),
        ]);
        if !matches!(how, Stdout::NoChosen) {
            let mut chosen = Node::new("chosen");
            if !matches!(how, Stdout::Missing) {
                let value = self.text(&[&stdout[..], options].concat());
                chosen.set("stdout-path", value);
            }
            root.children.push(chosen);
        }
        if !self.maybe("stdout: no /aliases", 8) {
            let value = self.text(&path);
            root.children.push(Node::new("aliases").with("serial0", value).with("serial1", *b"serial0\0"));
        }
    }

    /// A node of the tree, the deeper the rarer.
    fn some_node<'a>(&mut self, mut node: &'a mut Node) -> &'a mut Node {
        while !node.children.is_empty() && self.rng.below(3) > 0 {
            let child = self.place(node.children.len());
            node = &mut node.children[child];
        }
        node
    }

    /// Gives a child's name, or its part before an `@`, to a second child that differs.
    fn repeat_node(&mut self, root: &mut Node) {
        let parent = self.some_node(root);
        if parent.children.is_empty() {
            return;
        }
        let mut again = parent.children[self.place(parent.children.len())].clone();
        self.rng.shuffle(&mut again.children);
        if !again.properties.is_empty() {
            again.properties.remove(self.place(again.properties.len()));
        }
        again.name.extend(self.rng.pick(&[&b""[..], b"@7"]));
        let at = self.place(parent.children.len() + 1);
        parent.children.insert(at, again);
    }

    /// Gives a property's name to a second one with another value.
    fn repeat_property(&mut self, root: &mut Node) {
        let node = self.some_node(root);
        if node.properties.is_empty() {
            return;
        }
        let (name, mut value) = node.properties[self.place(node.properties.len())].clone();
        value.reverse();
        value.truncate(self.rng.pick(&[0, 4, 8, 64]));
        let at = self.place(node.properties.len() + 1);
        node.properties.insert(at, (name, value));
    }

    /// Properties that no rule reads, with names that are nearly those of others.
    fn set_noise(&mut self, root: &mut Node) {
        for _ in 0..self.rng.below(4) {
            let name =
                self.rng.pick(&["reg-names", "re", "xreg", "ranges-of", "#address-cell", "statu", "", "sizes"]);
            let value = self.rng.next().to_be_bytes()[..self.place(9)].to_vec();
            let node = self.some_node(root);
            let at = self.place(node.properties.len() + 1);
            node.properties.insert(at, (name.into(), value));
        }
    }

    fn shuffle_properties(&mut self, node: &mut Node) {
        self.rng.shuffle(&mut node.properties);
        for child in &mut node.children {
            self.shuffle_properties(child);
        }
    }

    pub fn tree(&mut self) -> Node {
        self.fitting = self.rng.pick(&[0, 1, 8]);
        let cells = self.cells();
        let top = Window { start: cells.top().wrapping_sub(2 * PAGE), len: 2 * PAGE };
        let middle = Window { start: (1 + self.rng.below(1 << 18)) * PAGE, len: 16 * PAGE };
        let windows = [top, middle, middle, Window { start: 0, len: PAGE }];
        let mut root = Node::new("");
        cells.state(&mut root);
        self.set_model(&mut root);
        // The root is no device, whatever it has.
        if self.rng.one_in(8) {
            self.set_compatible(&mut root);
            self.set_reg(&mut root, cells, &windows);
        }
        if !self.maybe("soc: missing", 12) {
            let name = self.rng.pick(&["soc", "soc", "soc@0"]);
            root.children.push(self.bus(name, 3, cells, &windows));
        }
        if !self.maybe("reserved: missing", 6) {
            root.children.push(self.reserved_memory(cells, &windows));
        }
        if self.rng.one_in(2) {
            let name = self.rng.pick(&BUSES[..4]);
            root.children.push(self.bus(name, 3, cells, &windows));
        }
        let controllers =
            self.choose(&[(1, "controllers: none", 0), (1, "controllers: one", 1), (1, "controllers: two", 2)]);
        for _ in 0..controllers {
            root.children.push(self.controller(cells, &windows));
        }
        if self.rng.one_in(3) {
            root.children.push(self.device(cells, &windows));
        }
        self.set_stdout(&mut root);
        if self.rng.one_in(2) {
            self.shuffle_properties(&mut root);
        }
        if self.maybe("repeated: a node's name", 8) {
            self.repeat_node(&mut root);
        }
        if self.maybe("repeated: a property's name", 8) {
            self.repeat_property(&mut root);
        }
        self.set_noise(&mut root);
        self.rng.shuffle(&mut root.children);
        root
    }

    /// A console below buses that all lead on, so that there are so many levels.
    pub fn deep(&mut self, levels: usize) -> Node {
        let absent = Cells { address: Count::Absent, size: Count::Absent };
        let mut node = self.device(absent, &[Window { start: 0, len: PAGE }]);
        node.name = b"a".into();
        for _ in 2..levels {
            node = Node::new("a").with("ranges", []).holding([node]);
        }
        let path = [b"/a".repeat(levels - 1), b"\0".to_vec()].concat();
        Node::new("").holding([node, Node::new("chosen").with("stdout-path", path)])
    }

    /// So many pages that do not touch, as one `reg`.
    pub fn many(&mut self, pages: u64) -> Node {
        let cells = Cells { address: Count::Of(1), size: Count::Of(1) };
        let mut reg = Vec::new();
        for i in 0..pages {
            cells.put_address(&mut reg, 2 * i * PAGE);
            cells.put_size(&mut reg, PAGE);
        }
        let name = self.choose(&[(1, "many: reserved", "reserved-memory"), (1, "many: devices", "soc")]);
        let mut parent = Node::new(name).with("ranges", []).holding([Node::new("all").with("reg", reg)]);
        let mut root = Node::new("");
        cells.state(&mut parent);
        cells.state(&mut root);
        root.holding([parent])
    }

    /// The entries of the reservation block.
    pub fn reservations(&mut self) -> Vec<[u64; 2]> {
        let mut entries = Vec::new();
        for _ in 0..self.rng.below(4) {
            let page = self.rng.below(1 << 20) * PAGE;
            let near = self.rng.near(page);
            entries.push(self.choose(&[
                (6, "block: some pages", [near, 3 * PAGE]),
                (1, "block: size 0", [near, 0]),
                (1, "block: address 0", [0, PAGE]),
                (1, "block: T, size 0x1000", [T, 0x1000]),
                (1, "block: T, size 0xfff", [T, 0xfff]),
                (1, "block: a sum of 2^64 - 1", [near, near.wrapping_neg().wrapping_sub(1)]),
                (1, "block: a sum of 2^64", [near, near.wrapping_neg()]),
                (1, "block: a sum past 2^64", [T, u64::MAX]),
                (1, "block: an end amid entries", [0, 0]),
            ]));
        }
        if !self.maybe("block: no end", 6) {
            entries.push([0, 0]);
        }
        entries
    }

    pub fn order(&mut self) -> Order {
        self.choose(&[
            (8, "blocks: reservations, structure, strings", Order::Usual),
            (2, "blocks: reservations, strings, structure", Order::StringsFirst),
            (1, "blocks: structure, reservations, strings", Order::StructureFirst),
        ])
    }
}

/// The steps to each node below this one, and whether it has `reg`.
fn paths(node: &Node, steps: &mut Vec<Vec<u8>>, all: &mut Vec<(Vec<Vec<u8>>, bool)>) {
    for child in &node.children {
        steps.push(child.name.clone());
        all.push((steps.clone(), child.properties.iter().any(|(name, _)| name == b"reg")));
        paths(child, steps, all);
        steps.pop();
    }
}
