//! The order files that a stream starts with, each with a name: case S, the edges and the numbers of document 01.
use crate::blob::{Blocks, Node, Order};
use crate::cases::{FREE, IDENTITY_MAP, KERNEL, NULL, PAGE, RESERVED, T};
use crate::order_file::{LARGEST, OrderFile};
use crate::order_layout::{BREAKS, KEEPS, grow};
use crate::rust::Claim;
use crate::tree_edges as trees;

/// A name, and the file's bytes.
pub type Named = (String, Vec<u8>);

/// A case of document 01, in its words.
type Said = (&'static str, OrderFile);

/// Every address, so that each registration of another kind is seen in the areas.
pub const ALL: Claim = [0, u64::MAX, FREE];

pub fn listed(list: &[Claim]) -> OrderFile {
    OrderFile { list: list.to_vec(), ..OrderFile::default() }
}

pub fn limited(low: Option<u64>, high: Option<u64>) -> OrderFile {
    OrderFile { low, high, ..listed(&[ALL]) }
}

pub fn with_tree(tree: Vec<u8>) -> OrderFile {
    OrderFile { tree, ..listed(&[ALL]) }
}

pub fn with_root(root: Node) -> OrderFile {
    with_tree(trees::case(&[], root).tree)
}

fn with_block(entries: &[[u64; 2]]) -> OrderFile {
    with_tree(trees::case(entries, Node::new("")).tree)
}

pub fn case_s() -> OrderFile {
    let pairs = [[0x10_0000, 0x20_0000], [0; 2], [0; 2], [0; 2], [0x40_0800, 0x1000]];
    OrderFile { pairs, ..listed(&[[0, 0x80_0000, FREE]]) }
}

fn rounding() -> Vec<Said> {
    vec![
        ("case S", case_s()),
        ("Free 0x800 size 0x1000: nothing", listed(&[[0x800, 0x1000, FREE]])),
        ("Free 0x800 size 0x1800: [0x1000, 0x2000)", listed(&[[0x800, 0x1800, FREE]])),
        ("Free 0x1000 and 0x1800, 0x800 each: nothing", listed(&[[0x1000, 0x800, FREE], [0x1800, 0x800, FREE]])),
        ("Reserved 0x1fff size 2: [0x1000, 0x3000)", listed(&[ALL, [0x1fff, 2, RESERVED]])),
        ("Free T size 0x1000: nothing", listed(&[[T, 0x1000, FREE]])),
        ("Free 0 size 2^64-1: up to T", listed(&[ALL])),
        ("Reserved 0xffffffffffffe000 size 2^64-1: up to T", listed(&[ALL, [T - 0x1000, u64::MAX, RESERVED]])),
        ("49 Free pages: a share of one", listed(&[[0, 49 * PAGE, FREE]])),
        (
            "10 Free pages, 7 of them Reserved: a share of 3/10",
            listed(&[[0, 10 * PAGE, FREE], [0, 7 * PAGE, RESERVED]]),
        ),
        ("Free, and all of it Reserved: a share of zero", listed(&[[0, PAGE, FREE], [0, PAGE, RESERVED]])),
        ("nothing at all: 112 bytes, no share", OrderFile::default()),
    ]
}

fn limits() -> Vec<Said> {
    vec![
        ("limits 1 and 0x1fff: no area", limited(Some(1), Some(0x1fff))),
        ("limits 0x1000 and 0x2000: one page", limited(Some(0x1000), Some(0x2000))),
        ("limits 0xfff and 0x2001: one page", limited(Some(0xfff), Some(0x2001))),
        ("limits 0 and 2^64-1", limited(Some(0), Some(u64::MAX))),
        ("low T: no area", limited(Some(T), None)),
        ("low 2^64-1: no area", limited(Some(u64::MAX), None)),
        ("high 0: no area", limited(None, Some(0))),
        ("high 0xfff: no area", limited(None, Some(0xfff))),
        ("low above high: no area", limited(Some(0x5000), Some(0x2000))),
    ]
}

fn blocks_and_status() -> Vec<Said> {
    vec![
        ("block entry T size 0x1000: skipped", with_block(&[[T, 0x1000]])),
        ("block entry T size 0xfff: registers nothing", with_block(&[[T, 0xfff]])),
        ("block entry of size 0, and one behind it: it goes on", with_block(&[[5, 0], [PAGE, 1]])),
        ("status okay counts, ok does not", with_tree(trees::statuses().tree)),
    ]
}

/// Window 0 to 0x40000000 length 0x1000, address 0xff8, by both rules.
fn windows() -> Vec<Named> {
    let ways = ["the soc window", "translation", "both at one device"];
    let named = |size: u64| {
        let trees = trees::both_rules([0, 0x4000_0000, 0x1000], 0xff8, size);
        let name = move |way: &str| format!("window of 0x1000, address 0xff8 size {size}, by {way}");
        ways.into_iter().zip(trees).map(move |(way, case)| (name(way), with_tree(case.tree).bytes()))
    };
    [8, 9, 10].into_iter().flat_map(named).collect()
}

/// Free pages, every second one.
pub fn pages(count: u64) -> Vec<Claim> {
    (0..count).map(|i| [2 * i * PAGE, PAGE, FREE]).collect()
}

/// A tree with so many devices, in every second page.
pub fn devices(count: u32) -> Vec<u8> {
    let reg: Vec<u32> = (0..count).flat_map(|i| [0x2000 * i + 0x1000, 0x1000]).collect();
    let all = Node::new("all").with("reg", trees::cells(&reg));
    trees::case(&[], trees::node("", 1).holding([trees::node("soc", 1).with("ranges", []).holding([all])])).tree
}

fn full_maps() -> Vec<Said> {
    let full = |more: &[Claim]| listed(&[&pages(512), more].concat());
    let pairs = [0, 2, 4, 6, 8].map(|i| [ALONE + i * PAGE, PAGE]);
    vec![
        ("512 Free pages, then an isolated one: 2", full(&[[2000 * PAGE, PAGE, FREE]])),
        ("512 Free pages, then a touching one of another kind: 2", full(&[[PAGE, PAGE, RESERVED]])),
        ("512 Free pages, then a bridging one: 511 held", full(&[[PAGE, PAGE, FREE]])),
        ("Free cut by a tree of 511 devices: 512 areas", with_tree(devices(511))),
        ("Free and a tree of 512 devices: 2", with_tree(devices(512))),
        ("Free, a tree of 507 devices, then five pairs apart: 2", OrderFile { pairs, ..with_tree(devices(507)) }),
    ]
}

/// A place where nothing else stands.
const ALONE: u64 = 0x1_0000_0000;
/// Two pages that do not touch, and the one between them.
const BETWEEN: [u64; 2] = [0x2_0000_1000, PAGE];

/// Two pages of a kind that do not touch, a tree of so many devices, and pairs that are empty, alone or between the
/// two pages.
fn bridged(kind: u64, devices_held: u32, pairs: [[u64; 2]; 5]) -> OrderFile {
    let list = [[BETWEEN[0] - PAGE, PAGE, kind], [BETWEEN[0] + PAGE, PAGE, kind]];
    OrderFile { pairs, tree: devices(devices_held), ..listed(&list) }
}

/// In which order the sources come, and of which kind they are, shows where one makes room for another.
fn sources() -> Vec<Said> {
    let (none, alone) = ([0, 0], [ALONE, PAGE]);
    let kernel_first = [BETWEEN, alone, none, none, none];
    let alone_first = [none, alone, none, none, BETWEEN];
    let after_the_tree = [none, none, BETWEEN, none, none];
    vec![
        ("a full map: kernel makes room for env", bridged(KERNEL, 510, kernel_first)),
        ("a full map: kernel is no IdentityMap: 2", bridged(IDENTITY_MAP, 510, kernel_first)),
        ("a full map: env comes before stack, which would make room: 2", bridged(IDENTITY_MAP, 510, alone_first)),
        (
            "a full map: the tree comes before hwdesc, which would make room: 2",
            bridged(IDENTITY_MAP, 511, after_the_tree),
        ),
    ]
}

pub fn bad_reg() -> Node {
    trees::reserving([trees::pool(&[0x1000, 8]), trees::pool(&[3])])
}

pub fn bad_ranges() -> Node {
    trees::node("", 1).holding([trees::unreadable_soc()])
}

/// A root and its children, so many nodes in all.
pub fn wide(nodes: usize) -> Vec<u8> {
    let root = Node::new("").holding((1..nodes).map(|_| Node::new("a")));
    Blocks::plain(&[], &root).lay_out(Order::Usual)
}

/// Tokens behind the end of the tree.
pub fn broken() -> Vec<u8> {
    let mut blocks = Blocks::plain(&[], &Node::new(""));
    blocks.structure.extend([0, 0, 0, 2, 0, 0, 0, 9]);
    blocks.lay_out(Order::Usual)
}

fn refusals() -> Vec<Said> {
    let arm = |order: OrderFile| OrderFile { arm: true, ..order };
    let virt = || with_root(bad_ranges().with("model", *b"linux,dummy-virt\0"));
    vec![
        ("kind 4: 1", listed(&[[0, PAGE, 4]])),
        ("kind 4, size 0: 1", listed(&[[0, 0, 4]])),
        ("kind 2^32 + 1: 1", listed(&[ALL, [0, PAGE, 0x1_0000_0001]])),
        ("a tree of one byte: 4", with_tree(vec![0xd0])),
        ("a tree without its magic number: 4", with_tree(vec![0; 64])),
        ("32 levels: done", with_root(trees::nested(32))),
        ("33 levels: 6", with_root(trees::nested(33))),
        ("4,097 nodes: 6", with_tree(wide(4097))),
        ("tokens behind the root: 5", with_tree(broken())),
        ("a name without end, too deep too: 5", with_tree(trees::endless_name_too_deep().tree)),
        ("an unreadable reg of a reserved child: 7", with_root(bad_reg())),
        ("an unreadable ranges of /soc: 8", with_root(bad_ranges())),
        ("both of these: 7", with_root(bad_reg().holding([trees::unreadable_soc()]))),
        ("an unreadable ranges of /soc, a virtual board: 8", virt()),
        ("the same, for 64-bit ARM: done", arm(virt())),
    ]
}

/// Files that could be refused for two numbers.
fn checks() -> Vec<Said> {
    let full = |tree: Vec<u8>| OrderFile { tree, ..listed(&pages(513)) };
    let unknown = |order: OrderFile| OrderFile { list: [&order.list[..], &[[0, 0, 4]]].concat(), ..order };
    vec![
        ("a broken header behind an unknown kind: 1", unknown(with_tree(vec![1]))),
        ("an unreadable reg behind an unknown kind: 1", unknown(with_root(bad_reg()))),
        ("an unknown kind behind a full map: 1", unknown(full(Vec::new()))),
        ("a broken header behind a full map: 4", full(vec![1])),
        ("an unreadable ranges behind a full map: 8", full(trees::case(&[], bad_ranges()).tree)),
    ]
}

/// Case S with each break of the layout, and files of the largest size and one byte more.
fn layouts() -> Vec<Named> {
    let of_s = |name: &str, edit: fn(&mut Vec<u8>)| {
        let mut file = case_s().bytes();
        edit(&mut file);
        (format!("S, {name}"), file)
    };
    let small = BREAKS.iter().filter(|(name, _)| !name.contains("65,537"));
    let mut all: Vec<Named> = small.chain(&KEEPS[1..3]).map(|(name, edit)| of_s(name, *edit)).collect();
    for (name, bytes) in [("65,536 bytes with 4,096 nodes: done", LARGEST), ("65,537 bytes: 9", LARGEST + 1)] {
        let mut file = OrderFile { tree: wide(4096), ..case_s() }.bytes();
        grow(&mut file, bytes);
        all.push((name.into(), file));
    }
    all
}

/// A list that fills the map if its Null takes no place there, and limits that leave the last page.
fn null_page() -> OrderFile {
    let (last, elsewhere) = ([2000 * PAGE, PAGE, FREE], [3000 * PAGE, PAGE, NULL]);
    OrderFile { low: Some(last[0]), ..listed(&[&pages(511)[..], &[elsewhere, last]].concat()) }
}

/// One dynamic child for each way to write the size of a page, which has one cell, in pages that do not touch.
fn dynamic_sizes() -> Node {
    let values: [&[u8]; 4] = [&[0, 0, 0x10, 0], &[0, 0, 0, 0, 0, 0, 0x10, 0], &[0, 0, 0, 0x10, 0], &[0x10, 0]];
    let child = |(i, value): (usize, &&[u8])| {
        let place = trees::cells(&[0x2000 * i as u32, 0x1000]);
        Node::new("pool").with("size", *value).with("alloc-ranges", place)
    };
    trees::reserving(values.iter().enumerate().map(child))
}

/// A device in the root, and a stdout that is an alias of this value.
fn aliased(value: &str) -> OrderFile {
    let device = Node::new("serial@1000").with("compatible", *b"x\0").with("reg", trees::cells(&[0x1000, 0x1000]));
    let aliases = Node::new("aliases").with("serial0", format!("{value}\0"));
    with_root(trees::node("", 1).holding([device, trees::console("serial0"), aliases]))
}

/// What random files hardly ever have, and the plain alias to compare with.
fn rare() -> Vec<Said> {
    vec![
        ("511 Free pages, a Null page elsewhere, one more Free page: 512 held", null_page()),
        ("a dynamic size counts in its cells, not in more or fewer bytes", with_root(dynamic_sizes())),
        ("an alias of a path: a claim", aliased("/serial")),
        ("an alias of a path without its first /: no claim", aliased("serial")),
        ("an alias of a path with a colon behind it: no claim", aliased("/serial:115200n8")),
        ("a start of 2^64 on the way of a translation: no claim", with_tree(trees::start_over_the_top().tree)),
        ("an end past 2^64 on the way of a translation: a claim", with_tree(trees::end_over_the_top().tree)),
        ("a console below four buses: a claim", with_tree(trees::streets().tree)),
        ("a /soc that is an interrupt controller: its own claims too", with_tree(trees::soc_is_controller().tree)),
        (
            "an unreadable reg of a reserved child that is disabled: no 7",
            with_tree(trees::unreadable_but_disabled().tree),
        ),
        ("a root with a name: 5", with_tree(trees::root_with_a_name().tree)),
    ]
}

pub fn edges() -> Vec<Named> {
    let bytes = |(name, order): Said| (name.into(), order.bytes());
    let mut all: Vec<Named> = [rounding(), limits(), blocks_and_status()].concat().into_iter().map(bytes).collect();
    all.extend(windows());
    all.extend([refusals(), checks(), full_maps(), sources()].concat().into_iter().map(bytes));
    all.extend(layouts());
    // Last, so that the places of those before do not change.
    all.extend(rare().into_iter().map(bytes));
    all
}
