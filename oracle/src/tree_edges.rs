//! The edges of document 01 that a stream of trees starts with, as small trees.
use crate::blob::{Blocks, Node, Order};
use crate::cases::{FREE, PAGE, T};
use crate::tree_cases::{TreeCase, far_page};

/// Numbers of one cell each.
pub fn cells(numbers: &[u32]) -> Vec<u8> {
    numbers.iter().flat_map(|number| number.to_be_bytes()).collect()
}

/// Numbers of two cells each.
pub fn pairs(numbers: &[u64]) -> Vec<u8> {
    numbers.iter().flat_map(|number| number.to_be_bytes()).collect()
}

/// A node that states so many cells for addresses and for sizes.
pub fn node(name: &str, count: u32) -> Node {
    Node::new(name).with("#address-cells", cells(&[count])).with("#size-cells", cells(&[count]))
}

pub fn case(reservations: &[[u64; 2]], root: Node) -> TreeCase {
    let tree = Blocks::plain(reservations, &root).lay_out(Order::Usual);
    TreeCase { before: Vec::new(), arm: false, tree }
}

pub fn console(path: &str) -> Node {
    Node::new("chosen").with("stdout-path", format!("{path}\0"))
}

/// A root, a bus in it with one range, and a device in that.
fn windowed(bus: &str, range: [u64; 3], address: u64, size: u64) -> Node {
    let device = Node::new("serial@1").with("compatible", *b"x\0").with("reg", pairs(&[address, size]));
    node("", 2).holding([node(bus, 2).with("ranges", pairs(&range)).holding([device])])
}

/// The same range through the soc window, through translation, and through both at one device.
pub fn both_rules(range: [u64; 3], address: u64, size: u64) -> [TreeCase; 3] {
    let soc = windowed("soc", range, address, size);
    let bus = windowed("bus", range, address, size);
    [
        case(&[], soc.clone()),
        case(&[], bus.holding([console("/bus/serial")])),
        case(&[], soc.holding([console("/soc/serial:115200n8")])),
    ]
}

/// Two buses: on the way through the outer one the region's end, or its start too, is past 2^64 - 1, and in the end it
/// would not be.
fn over_the_top(address: u64, size: u64) -> TreeCase {
    let mut root = windowed("inner", [0, T, 0x2000], address, size);
    let outer = node("outer", 2).with("ranges", pairs(&[T, 0x4000_0000, 0x2000])).holding(root.children.drain(..));
    case(&[], root.holding([outer, console("/outer/inner/serial")]))
}

/// The end alone is past it: on the way nothing is asked of it.
pub fn end_over_the_top() -> TreeCase {
    over_the_top(0xff8, 16)
}

/// The start is 2^64: it must be below that on the way too.
pub fn start_over_the_top() -> TreeCase {
    over_the_top(0x1000, 8)
}

/// Buses within one another, so many of them, each with a device before and one behind the next bus. Each bus leads to
/// what the one around it takes, so that in another order they lead nowhere. In the end no two nodes meet.
fn street(name: &str, buses: u64) -> Node {
    const LENGTH: u64 = 0x10_0000;
    let mut inner = None;
    for i in 0..buses {
        let (from, to, own) = (i * LENGTH, (i + 1) * LENGTH, i * 0x100);
        let device = |name: &str, at: u64| {
            Node::new(name).with("compatible", *b"x\0").with("reg", pairs(&[from + own + at, 8]))
        };
        let bus = node("bus", 2).with("ranges", pairs(&[from, to, LENGTH])).with("reg", pairs(&[to + own + 0x30, 8]));
        let next = inner.unwrap_or_else(|| device("inmost", 0x40));
        inner = Some(bus.holding([device("before", 0x10), next, device("behind", 0x20)]));
    }
    Node { name: name.into(), ..inner.expect("a bus") }
}

/// Buses up to four deep, with devices beside each. The ones in `closed`, which has no `ranges`, lead nowhere, and they
/// are counted in the places of those behind.
pub fn streets() -> TreeCase {
    let closed = node("closed", 2).holding([street("bus", 2)]);
    case(
        &[],
        node("", 2).holding([street("three", 3), closed, street("four", 4), console("/four/bus/bus/bus/behind")]),
    )
}

/// A /soc that is an interrupt controller itself, with two devices in it, the second one too. In the root a controller
/// counts, and in /soc it is a device like another.
pub fn soc_is_controller() -> TreeCase {
    let device = |name: &str, page: u32| Node::new(name).with("reg", cells(&[page, 0x1000]));
    let inner = [device("timer", 0x1000), device("gic", 0x3000).with("interrupt-controller", [])];
    let soc = node("soc", 1).with("ranges", cells(&[0, 0x4000_0000, 0x10_0000])).with("interrupt-controller", []);
    let soc = soc.with("reg", cells(&[0x5000, 0x1000, 0x7000, 0x1000]));
    case(&[], node("", 1).holding([soc.holding(inner)]))
}

/// A reserved child that does not count, with a `reg` that cannot be read, beside one that counts.
pub fn unreadable_but_disabled() -> TreeCase {
    case(&[], reserving([pool(&[3]).with("status", *b"disabled\0"), pool(&[0x1000, 8])]))
}

/// A tree that is sound but for the name of its root.
pub fn root_with_a_name() -> TreeCase {
    case(&[], Node::new("a"))
}

/// A root with /reserved-memory, which has these children.
pub fn reserving(children: impl IntoIterator<Item = Node>) -> Node {
    node("", 1).holding([node("reserved-memory", 1).with("ranges", []).holding(children)])
}

pub fn pool(reg: &[u32]) -> Node {
    Node::new("pool").with("reg", cells(reg))
}

/// A /soc with a `ranges` that cannot be read, and a device with one entry.
pub fn unreadable_soc() -> Node {
    node("soc", 1).with("ranges", cells(&[0])).holding([Node::new("device").with("reg", cells(&[0x1000, 8]))])
}

/// Nodes within one another, so that there are so many levels.
pub fn nested(levels: usize) -> Node {
    let mut node = Node::new("a");
    for _ in 2..levels {
        node = Node::new("a").holding([node]);
    }
    Node::new("").holding([node])
}

/// "The name ended" and the level are faults of one token: 5 comes before 6.
pub fn endless_name_too_deep() -> TreeCase {
    let mut blocks = Blocks::plain(&[], &nested(33));
    blocks.structure.truncate(8 * 32 + 5);
    TreeCase { before: Vec::new(), arm: false, tree: blocks.lay_out(Order::Usual) }
}

/// One child for each way to write `status`, in pages that do not touch.
pub fn statuses() -> TreeCase {
    let values: [&[u8]; 6] = [b"okay\0", b"ok\0", b"disabled\0", b"okay", b"okay\0\0", b""];
    let child = |(i, value): (usize, &&[u8])| pool(&[0x2000 * i as u32, 1]).with("status", *value);
    case(&[], reserving(values.iter().enumerate().map(child)))
}

/// Trees that are refused, or that a full map refuses, with room for all, for two entries and for none.
fn refusals() -> Vec<TreeCase> {
    let bad_reg = || reserving([pool(&[0x1000, 8]), pool(&[3])]);
    let virt = || Node::new("").with("model", *b"linux,dummy-virt\0");
    let trees = [
        case(&[[PAGE, PAGE]], bad_reg()),
        case(&[[PAGE, PAGE]], node("", 1).holding([unreadable_soc()])),
        case(&[], bad_reg().holding([unreadable_soc()])),
        case(&[], virt().holding([unreadable_soc()])),
        case(&[], reserving([pool(&[0x1000, 1, 0x3000, 1, 0x5000, 1])])),
    ];
    let mut cases = Vec::new();
    for TreeCase { tree, .. } in trees {
        for arm in [false, true] {
            for full in [0, 510, 512] {
                let before = (0..full).map(|i| far_page(i, FREE)).collect();
                cases.push(TreeCase { before, arm, tree: tree.clone() });
            }
        }
    }
    cases
}

pub fn edges() -> Vec<TreeCase> {
    let mut cases = vec![
        TreeCase { before: Vec::new(), arm: false, tree: Vec::new() },
        case(&[[0, 0]], Node::new("")),
        case(&[[T, 0x1000], [0, 0]], Node::new("")),
        case(&[[T, 0xfff], [0, 0]], Node::new("")),
        case(&[[5, 0], [PAGE, 1]], Node::new("")),
    ];
    let window = [0, 0x4000_0000, 0x1000];
    for size in [8, 9, 10] {
        cases.extend(both_rules(window, 0xff8, size));
    }
    // The end of the region in the parent is 2^64, or one past it; and so its start.
    let high = [0, T, 0x2000];
    for (address, size) in [(0xff8, 8), (0xff8, 9), (0xfff, 1), (0x1000, 1), (0x1000, 0)] {
        cases.extend(both_rules(high, address, size));
    }
    // The region's own end is past 2^64, and is capped for the soc window.
    cases.extend(both_rules([T, 0x4000_0000, 0xfff], T + 0xff8, 0x100));
    cases.extend([end_over_the_top(), start_over_the_top()]);
    for size in [8, 9] {
        let controller = Node::new("gic").with("interrupt-controller", []).with("reg", pairs(&[T + 0xff8, size]));
        cases.push(case(&[], node("", 2).holding([controller])));
    }
    cases.extend([case(&[], nested(32)), case(&[], nested(33)), endless_name_too_deep(), statuses()]);
    cases.extend([streets(), soc_is_controller(), unreadable_but_disabled(), root_with_a_name()]);
    cases.extend(refusals());
    cases
}
