//! The whole build for `oracle bench`: the Rust's `init` with every source of an order file, and our call that is
//! handed the file itself.
use crate::bench::{Work, board, cells, timed};
use crate::blob::{Blocks, Node, Order};
use crate::cases::{FREE, PAGE, RESERVED};
use crate::order_file::{LARGEST, OrderFile};
use crate::page_sets::Sheet;
use crate::rust::{self, Claim, tree_claims, whole_words};
use crate::startup::original::hold;
use crate::whole::{SLOTS, build, kernel_args, registrations};

/// What our call answers: a number of document 01, the count of the areas, and the page sheet.
#[repr(C)]
struct WharfthrumReport {
    number: u64,
    count: u64,
    free: u64,
    usable: u64,
    has_share: u64,
    share: f64,
}

unsafe extern "C" {
    fn wharfthrum_build(file: *const u8, file_len: usize, slots: *mut u64, slots_len: usize) -> WharfthrumReport;
}

fn call(file: &[u8], slots: &mut [u64]) -> WharfthrumReport {
    unsafe { wharfthrum_build(file.as_ptr(), file.len(), slots.as_mut_ptr(), slots.len()) }
}

/// Both sides must come to the same areas, and ours to their page sheet, before either is timed.
fn check(name: &str, order: &OrderFile) {
    let tree = tree_claims(&order.tree, order.arm).expect("a sound tree");
    let areas = build(order, &tree).expect("a map with room");
    let sheet = Sheet::new(&registrations(order, &tree), order.low, order.high);
    let mut slots = [0; 2 * SLOTS];
    let ours = call(&order.bytes(), &mut slots);
    let share = if ours.has_share == 0 { "none".into() } else { format!("{:016x}", ours.share.to_bits()) };
    assert_eq!((ours.number, ours.count), (rust::DONE, areas.len() as u64), "{name}");
    assert!(slots.starts_with(areas.as_flattened()), "{name}: the areas differ");
    assert_eq!((ours.free, ours.usable, share), (sheet.free, sheet.usable, sheet.share()), "{name}");
}

fn work(name: String, order: OrderFile) -> Work {
    check(&name, &order);
    let file = order.bytes();
    assert!(file.len() <= LARGEST, "{name}");
    let words = whole_words(&order.tree);
    Work {
        name: name.leak(),
        beside: Box::new(move || {
            let args = kernel_args(&order, &words);
            hold(&[]);
            rust::unheard(|| rust::time_init(&args, SLOTS))
        }),
        ours: Box::new(move || {
            let mut slots = [0; 2 * SLOTS];
            timed(|| call(&file, &mut slots).count as usize)
        }),
    }
}

/// A list of 8 entries, and the five pairs.
fn machine(tree: Vec<u8>) -> OrderFile {
    let list = vec![
        [0, 0x9_f000, FREE],
        [0x9_f000, 0x6_1000, RESERVED],
        [0x10_0000, 0x3ff0_0000, FREE],
        [0x8000_0000, 0x4000_0000, FREE],
        [0xc000_0000, 0x100_0000, 2],
        [0xc100_0000, 0x2f00_0000, FREE],
        [0xfec0_0000, 0x140_0000, RESERVED],
        [0x1_0000_0000, 0x1_0000_0000, FREE],
    ];
    OrderFile { pairs: PAIRS, list, tree, ..OrderFile::default() }
}

const PAIRS: [[u64; 2]; 5] = [
    [0x8020_0000, 0x200_0000],
    [0x8300_0000, 0x1000],
    [0x8310_0000, 0x1_2345],
    [0x8400_0000, 0x300_0000],
    [0x8800_0000, 0x1_0000],
];

/// 4,000 nodes in so few bytes that an order file holds them: all but two are children of /soc, and one in eight has
/// a `reg`. These stand two pages apart, 100 of them in turn.
fn bare() -> Vec<u8> {
    let child = |i: u32| match i % 8 {
        0 => Node::new("a").with("reg", cells(&[0x1_0000 + i / 8 % 100 * 0x2000, 0x1000])),
        _ => Node::new("a"),
    };
    let one_cell = |name| Node::new(name).with("#address-cells", cells(&[1])).with("#size-cells", cells(&[1]));
    let soc = one_cell("soc").with("ranges", cells(&[0, 0x4000_0000, 0x4000_0000])).holding((0..3998).map(child));
    Blocks::plain(&[], &one_cell("").holding([soc])).lay_out(Order::Usual)
}

/// The most nodes of a board that an order file has room for.
fn most() -> u32 {
    let fits = |nodes: &u32| machine(board(*nodes)).bytes().len() <= LARGEST;
    (500..4000).take_while(fits).last().expect("a board of 500 nodes fits")
}

pub fn works() -> Vec<Work> {
    let mut works = Vec::new();
    for nodes in [50, 500, most()] {
        works.push(work(format!("whole build, a board of {nodes} nodes (b) (c)"), machine(board(nodes))));
    }
    works.push(work("whole build, 4,000 bare nodes (b) (c)".into(), machine(bare())));
    let pages: Vec<Claim> = (0..507).map(|i| [2 * i * PAGE, PAGE, FREE]).collect();
    let holes = (0..506).map(|i| [(2 * i + 1) * PAGE, PAGE, RESERVED]);
    let cut: Vec<Claim> = [[0, 1024 * PAGE, FREE]].into_iter().chain(holes).collect();
    for (name, list) in [("507 Free", pages), ("1 Free cut by 506", cut)] {
        let order = OrderFile { pairs: PAIRS, list, ..OrderFile::default() };
        works.push(work(format!("whole build, full map: {name}, pairs (c)"), order));
    }
    works
}
