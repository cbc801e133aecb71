//! The inputs that a stream of late claims starts with, each with a name: the edges of request L3 of document 02.
use crate::cases::{DEVICE, FREE, IDENTITY_MAP, KERNEL, KINDS, NO_KINDS, NULL, PAGE, RESERVED, T};
use crate::order_edges::{
    ALL, Named, bad_ranges, bad_reg, broken, case_s, devices, limited, listed, pages, wide, with_root, with_tree,
};
use crate::order_file::{FLAGS, LARGEST, LIST_COUNT, OrderFile, TREE_LENGTH, VERSION, ZEROS};
use crate::order_layout::grow;
use crate::rust::Claim;

/// A name, the order file and the late claims.
type Said = (&'static str, OrderFile, Vec<Claim>);

/// A name, and the input's bytes.
type Bytes = (&'static str, Vec<u8>);

/// Case S has areas [0, 0x100000), [0x300000, 0x400000) and [0x402000, 0x800000). This is a page in the midst of the
/// second.
const PLACE: u64 = 0x35_0000;
const ONE: Claim = [PLACE, PAGE, DEVICE];
/// A page of the third.
const OTHER: Claim = [0x60_0000, PAGE, DEVICE];
const MOST: u64 = u64::MAX;

/// A device's claim behind case S.
fn in_s((name, base, size): (&'static str, u64, u64)) -> Said {
    (name, case_s(), vec![[base, size, DEVICE]])
}

/// A device's claim where all that can be is Free: one area from 0 to T.
fn in_all((name, base, size): (&'static str, u64, u64)) -> Said {
    (name, listed(&[ALL]), vec![[base, size, DEVICE]])
}

/// Claims at every edge of the second area of case S.
fn edges_of_an_area() -> Vec<Said> {
    [
        ("ends at an area's start: it stays", 0x2f_f000, PAGE),
        ("starts at an area's end: it stays", 0x40_0000, PAGE),
        ("ends a byte past an area's start: its first page", 0x2f_f000, PAGE + 1),
        ("starts a byte before an area's end: its last page", 0x3f_ffff, 1),
        ("an area's first page", 0x30_0000, PAGE),
        ("an area's last page", 0x3f_f000, PAGE),
        ("all but an area's first page", 0x30_1000, 0xf_f000),
        ("all but an area's last page", 0x30_0000, 0xf_f000),
        ("all but an area's first and last page", 0x30_1000, 0xf_e000),
        ("a whole area", 0x30_0000, 0x10_0000),
        ("a whole area, and a byte more on each side", 0x2f_ffff, 0x10_0002),
        ("a whole area but for a byte on each side: all of it", 0x30_0001, 0xf_fffe),
        ("the first area whole", 0, 0x10_0000),
        ("the last area whole", 0x40_2000, 0x3f_e000),
        ("one page in an area's midst: two pieces", PLACE, PAGE),
        ("one page in the first area's midst: the slots of the others move up", 0x8_0000, PAGE),
        ("one page in the last area's midst", 0x60_0000, PAGE),
        ("one byte: a page", PLACE, 1),
        ("one byte at an unaligned base: its page", PLACE + 0xfff, 1),
        ("two bytes over a page's edge: two pages", PLACE + 0xfff, 2),
        ("a page's size at an unaligned base: two pages", PLACE + 0x800, PAGE),
        ("a byte less than a page at an unaligned base: its page", PLACE + 1, 0xfff),
        ("size 0 in an area's midst: nothing", PLACE, 0),
        ("size 0 at an unaligned base in an area's midst: nothing", PLACE + 0x800, 0),
        ("size 0 a byte before an area's end: nothing", 0x3f_ffff, 0),
    ]
    .map(in_s)
    .into()
}

/// Claims over more than one area, and beside all of them.
fn several_areas() -> Vec<Said> {
    [
        ("the last page of an area, the gap, and the first page of the next", 0xf_f000, 0x20_2000),
        ("from the first area's midst to the last one's, the second whole", 0x8_0000, 0x48_0000),
        ("the first two areas whole", 0, 0x40_0000),
        ("the last two areas whole", 0x30_0000, 0x50_0000),
        ("exactly the gap: nothing is taken", 0x10_0000, 0x20_0000),
        ("the gap, and a byte more on each side: a page of each area", 0xf_ffff, 0x20_0002),
        ("the gap but for a byte on each side: nothing is taken", 0x10_0001, 0x1f_fffe),
        ("behind all areas: nothing is taken", 0x80_0000, PAGE),
        ("all areas: none is left", 0, 0x80_0000),
        ("every address: none is left", 0, MOST),
    ]
    .map(in_s)
    .into()
}

/// Claims at the top of the address space.
fn the_top() -> Vec<Said> {
    let mut all = [
        ("the last page below T", T - PAGE, PAGE),
        ("the last page below T, to the end of all", T - PAGE, MOST),
        ("the last byte below T", T - 1, 1),
        ("the last byte below T, and one more", T - 1, 2),
        ("the last page but one below T", T - 2 * PAGE, PAGE),
        ("base T, one byte: nothing", T, 1),
        ("base T, one page: nothing", T, PAGE),
        ("base in the page at T: nothing", T + 0x800, MOST),
        ("base 2^64 - 1, one byte: nothing", MOST, 1),
        ("base 2^64 - 1, size 2^64 - 1: nothing", MOST, MOST),
        ("base 2^64 - 1, size 0: nothing", MOST, 0),
        ("base T - 1, size 0: nothing", T - 1, 0),
        ("base 0, size T: none is left", 0, T),
        ("base 0, size T less a page: the last page below T is left", 0, T - PAGE),
        ("base 0, a byte more: none is left", 0, T - PAGE + 1),
        ("base 0, size 2^64 - 1: none is left", 0, MOST),
        ("base 0, one byte: the first page", 0, 1),
        ("base 0xfff, size 2^64 - 1: none is left", 0xfff, MOST),
        ("base 0x1000, size 2^64 - 1: the first page is left", PAGE, MOST),
        ("base 2^63, size 2^63: the upper half", 1 << 63, 1 << 63),
        ("base 2^63, size 2^63 - 1: the upper half", 1 << 63, (1 << 63) - 1),
    ]
    .map(in_all)
    .to_vec();
    all.push(("base T, one page, of kind Free: 13", listed(&[ALL]), vec![[T, PAGE, FREE]]));
    all
}

/// Each kind; and what is refused for its kind, whatever else is wrong with it.
fn kinds() -> Vec<Named> {
    let named = |name: String, order: OrderFile, claim: Claim| (name, input(&order, &[claim]));
    let ends = |kind: u64| if kind == NULL || kind == FREE { ": 13" } else { "" };
    let known = KINDS.map(|kind| named(format!("kind {kind:#x}{}", ends(kind)), case_s(), [PLACE, PAGE, kind]));
    let empty = KINDS.map(|kind| named(format!("kind {kind:#x}, size 0{}", ends(kind)), case_s(), [PLACE, 0, kind]));
    let unknown = NO_KINDS.map(|kind| named(format!("kind {kind:#x}: 1"), case_s(), [PLACE, PAGE, kind]));
    let full = || near(512);
    let rest = [
        named("kind 4, size 0: 1".into(), case_s(), [PLACE, 0, 4]),
        named("kind 2^32 + 0x101: 1".into(), case_s(), [PLACE, PAGE, 0x1_0000_0101]),
        named("kind 2^64 - 1, size 0, base 2^64 - 1: 1".into(), case_s(), [MOST, 0, MOST]),
        named("kind 4 on a full map: 1".into(), full(), [ALONE, PAGE, 4]),
        named("Null on a full map: 13".into(), full(), [ALONE, PAGE, NULL]),
        named("Free on a full map, which would make room: 13".into(), full(), [PAGE, PAGE, FREE]),
    ];
    known.into_iter().chain(empty).chain(unknown).chain(rest).collect()
}

/// A place far from all else.
const ALONE: u64 = 0x1_0000_0000;

/// A map of so many Free pages, every second one, under a limit that lists the last two alone.
fn near(count: u64) -> OrderFile {
    OrderFile { low: Some(2 * (count - 2) * PAGE), ..listed(&pages(count)) }
}

fn nearly_full_maps() -> Vec<Said> {
    let last = 2 * 510 * PAGE;
    let on_last = [last, PAGE, DEVICE];
    let full = 2 * 511 * PAGE;
    vec![
        ("511 held, then one alone: done", near(511), vec![[ALONE, 1, DEVICE]]),
        ("511 held, then one on a Free page: done", near(511), vec![on_last]),
        ("511 held, then two alone: 2", near(511), vec![[ALONE, 1, DEVICE], [2 * ALONE, 1, DEVICE]]),
        (
            "511 held, then one on a Free page and one that touches it: done",
            near(511),
            vec![on_last, [last - PAGE, PAGE, DEVICE], [last - 2 * PAGE, PAGE, DEVICE]],
        ),
        (
            "511 held, then one on a Free page and one of another kind that touches it: 2",
            near(511),
            vec![on_last, [last - PAGE, PAGE, RESERVED]],
        ),
        (
            "511 held, then one on a Free page, and the same of another kind: 2",
            near(511),
            vec![on_last, [last, PAGE, RESERVED]],
        ),
        ("512 held, then one alone: 2", near(512), vec![[ALONE, 1, DEVICE]]),
        ("512 held, then one on a Free page: 2", near(512), vec![[full, PAGE, DEVICE]]),
        ("512 held, then every address: 2", near(512), vec![[0, MOST, DEVICE]]),
        ("512 held, then size 0: done", near(512), vec![[full, 0, DEVICE]]),
        ("512 held, then size 0 at an unaligned base: done", near(512), vec![[full + 1, 0, DEVICE]]),
        ("512 held, then base T: done", near(512), vec![[T, PAGE, DEVICE]]),
        ("512 held, then size 0, base T, one alone: 2 at 2", near(512), vec![[0, 0, 2], [T, 1, 2], [full, 1, 2]]),
    ]
}

/// Where Free is cut by so many devices, in every second page from the second on.
fn cut(count: u32) -> OrderFile {
    with_tree(devices(count))
}

/// Tables of 512 areas, and such as become so.
fn full_tables() -> Vec<Said> {
    let touching = [0, PAGE, DEVICE];
    let bridging = [2 * PAGE, PAGE, DEVICE];
    let last = [ALONE, PAGE, RESERVED];
    vec![
        ("512 areas, then the first, which touches a device: 511", cut(511), vec![touching]),
        ("512 areas, then one that touches a device, of another kind: 2", cut(511), vec![[0, PAGE, RESERVED]]),
        ("512 areas, then one in the last area's midst: 2", cut(511), vec![last]),
        ("512 areas, then one between two devices, which makes room", cut(511), vec![bridging, last]),
        (
            "512 areas, then half of them at once, and two alone",
            cut(511),
            vec![[256 * PAGE, 512 * PAGE, DEVICE], last, [2 * ALONE, PAGE, KERNEL]],
        ),
        ("512 areas, then all but the last", cut(511), vec![[0, 1022 * PAGE, DEVICE]]),
        ("512 areas, then every address", cut(511), vec![[0, MOST, DEVICE]]),
        (
            "511 areas, then one in the last area's midst: 512, and one more: 2",
            cut(510),
            vec![last, [2 * ALONE, PAGE, RESERVED]],
        ),
        (
            "511 areas, then one in the last area's midst: 512, and one that touches it",
            cut(510),
            vec![last, [ALONE + PAGE, PAGE, RESERVED]],
        ),
    ]
}

/// Claims, a number of pages apart from one another.
fn forty(first: u64, apart: u64) -> Vec<Claim> {
    (0..40).map(|i| [first + apart * i * PAGE, PAGE, DEVICE]).collect()
}

/// Several claims behind case S.
fn rows() -> Vec<Said> {
    let with = |at: usize, claim: Claim| {
        let mut claims = forty(PLACE, 2);
        claims[at] = claim;
        claims
    };
    let reversed = forty(PLACE, 2).into_iter().rev().collect();
    [
        ("no claim", vec![]),
        ("forty claims apart", forty(PLACE, 2)),
        ("forty claims, the last one first", reversed),
        ("forty claims that touch one another", forty(PLACE, 1)),
        ("forty times the same claim", forty(PLACE, 0)),
        ("forty claims, the first of kind Free: 13 at 0", with(0, [0, 0, FREE])),
        ("forty claims, the twentieth of kind Null: 13 at 19", with(19, [0, 0, NULL])),
        ("forty claims, the last one of kind 4: 1 at 39", with(39, [0, 0, 4])),
        ("a refusal in the middle: the one behind it is not made", vec![ONE, [PLACE, PAGE, FREE], OTHER]),
        ("1 and then 13: the first one is told", vec![[PLACE, PAGE, 4], [PLACE, PAGE, FREE]]),
        ("13 and then 1: the first one is told", vec![[PLACE, PAGE, FREE], [PLACE, PAGE, 4]]),
        ("size 0 counts as a claim", vec![[PLACE, 0, DEVICE], ONE, [PLACE + 1, 0, DEVICE]]),
        ("the same page of two kinds", vec![ONE, [PLACE, PAGE, RESERVED]]),
        ("one inside another", vec![[PLACE, 4 * PAGE, DEVICE], [PLACE + PAGE, PAGE, KERNEL]]),
        ("one around another", vec![[PLACE + PAGE, PAGE, KERNEL], [PLACE, 4 * PAGE, DEVICE]]),
        (
            "an area from both sides until nothing is left",
            vec![[0x30_0000, 0x8_0000, DEVICE], [0x38_1000, 0x7_f000, DEVICE], [0x38_0000, 1, DEVICE]],
        ),
        ("beside the kernel, of its kind", vec![[0x30_0000, PAGE, KERNEL], [0xf_f000, PAGE, KERNEL]]),
        ("over the stack, of its kind", vec![[0x3f_ffff, 0x2002, IDENTITY_MAP]]),
    ]
    .map(|(name, claims)| (name, case_s(), claims))
    .into()
}

/// Files with a tree, with limits, and with nothing.
fn files() -> Vec<Said> {
    let between = |low: u64, high: u64| limited(Some(low), Some(high));
    let both = OrderFile { low: Some(0x1800), high: Some(0x1_0800), ..cut(6) };
    vec![
        ("nothing at all, then a claim", OrderFile::default(), vec![ONE]),
        ("a tree, then one beside a device and one on it", cut(3), vec![[0, 1, DEVICE], [PAGE, PAGE, RESERVED]]),
        ("a tree and limits, no claim", both.clone(), vec![]),
        ("a tree and limits, then one over the low limit", both.clone(), vec![[0, 3 * PAGE, DEVICE]]),
        ("a tree and limits, then one at the high limit", both, vec![[0xf_000, PAGE, KERNEL], [0x1_0000, PAGE, 2]]),
        ("limits, then one below them: nothing is taken", between(0x3000, 0x9000), vec![[0x2000, PAGE, DEVICE]]),
        ("limits, then one above them: nothing is taken", between(0x3000, 0x9000), vec![[0x9000, PAGE, DEVICE]]),
        ("limits, then the first page inside them", between(0x2001, 0x9fff), vec![[0x3000, 1, DEVICE]]),
        ("limits, then the last page inside them", between(0x2001, 0x9fff), vec![[0x8fff, 1, DEVICE]]),
        ("limits with nothing between them, then a claim", between(0x9000, 0x3000), vec![ONE]),
        ("a device's page, claimed anew by its own kind", cut(2), vec![[PAGE, PAGE, DEVICE]]),
    ]
}

/// Refused files, with a claim behind them that is not made, or could be refused.
fn refused_files() -> Vec<Said> {
    let nested = crate::tree_edges::nested;
    vec![
        ("a refused file of kind 4, then a claim: 1", listed(&[[0, PAGE, 4]]), vec![ONE]),
        ("a refused file of kind 4, then a claim of kind Free: 1", listed(&[[0, PAGE, 4]]), vec![[0, 0, FREE]]),
        ("a refused file without room, then a claim: 2", listed(&pages(513)), vec![[PAGE, PAGE, DEVICE]]),
        ("a tree of one byte, then a claim: 4", with_tree(vec![0xd0]), vec![ONE]),
        ("tokens behind the root, then a claim: 5", with_tree(broken()), vec![ONE]),
        ("33 levels, then a claim of kind 4: 6", with_root(nested(33)), vec![[0, 0, 4]]),
        ("an unreadable reg of a reserved child, then a claim: 7", with_root(bad_reg()), vec![ONE]),
        ("an unreadable ranges of /soc, then a claim: 8", with_root(bad_ranges()), vec![ONE]),
    ]
}

fn bytes(claims: &[Claim]) -> Vec<u8> {
    claims.as_flattened().iter().flat_map(|number| number.to_le_bytes()).collect()
}

fn input(order: &OrderFile, claims: &[Claim]) -> Vec<u8> {
    [order.bytes(), bytes(claims)].concat()
}

/// Case S, and bytes behind it.
fn behind_s(more: &[u8]) -> Vec<u8> {
    [&case_s().bytes(), more].concat()
}

/// Case S with another byte, and then a claim.
fn edited_s(at: usize, byte: u8, claims: &[Claim]) -> Vec<u8> {
    let mut all = input(&case_s(), claims);
    all[at] = byte;
    all
}

/// Bytes that are too few for a claim.
fn left_over() -> Vec<Bytes> {
    let (one, two) = (bytes(&[ONE]), bytes(&[ONE, OTHER]));
    vec![
        ("one byte left over", behind_s(&one[..1])),
        ("16 bytes left over", behind_s(&one[..16])),
        ("23 bytes left over, which lack a zero to be a claim", behind_s(&one[..23])),
        ("23 bytes left over, none of them zero", behind_s(&[0xff; 23])),
        ("a claim, and 23 bytes left over", behind_s(&two[..47])),
        ("a claim, and one byte left over", behind_s(&two[..25])),
    ]
}

/// Where the file ends is for its header to say.
fn ends() -> Vec<Bytes> {
    let s = case_s().bytes();
    let list_count = |count: u8, claims: &[Claim]| edited_s(LIST_COUNT, count, claims);
    let tree_length = |length: u8, claims: &[Claim]| edited_s(TREE_LENGTH, length, claims);
    let limits = OrderFile { low: Some(PAGE), high: Some(DEVICE), ..case_s() };
    vec![
        ("no bytes: 9", Vec::new()),
        ("111 bytes: 9", s[..111].to_vec()),
        ("a header alone, which says that there is a list: 9", s[..112].to_vec()),
        ("a byte of the list is missing: 9", s[..s.len() - 1].to_vec()),
        ("no G, then a claim: 9", edited_s(0, b'g', &[ONE])),
        ("version 2, then a claim: 9", edited_s(VERSION, 2, &[ONE])),
        ("flag 8, then a claim: 9", edited_s(FLAGS, 8, &[ONE])),
        ("byte 108 not 0, then a claim: 9", edited_s(ZEROS, 1, &[ONE])),
        ("the header counts one entry more, and there is none: 9", list_count(2, &[])),
        ("the header counts one entry more, which is the claim: none late", list_count(2, &[ONE])),
        ("the header counts one entry more, then two claims: one late", list_count(2, &[ONE, OTHER])),
        ("the header counts no entry, so that the list is a claim of kind Free: 13", list_count(0, &[ONE])),
        ("the header counts 255 entries, and there are two: 9", list_count(255, &[ONE])),
        ("the header says that 24 bytes are a tree, which are the claim: 4", tree_length(24, &[ONE])),
        ("the header says that one byte is a tree, so that 23 are left over: 4", tree_length(1, &[ONE])),
        ("the header says that 25 bytes are a tree, and there are 24: 9", tree_length(25, &[ONE])),
        ("the header says that 2^31 bytes are a tree: 9", edited_s(ZEROS - 1, 0x80, &[ONE])),
        ("case S twice: its second header is a claim of kind Null: 13 at 0", behind_s(&s)),
        ("case S, then a file whose limits are a size and a kind: 13 at 1", behind_s(&limits.bytes())),
    ]
}

/// Case S, made as large as this by entries of kind Null.
fn large(bytes: usize) -> Vec<u8> {
    let mut file = OrderFile { tree: wide(4), ..case_s() }.bytes();
    grow(&mut file, bytes);
    file
}

/// The largest file, one that is too large, and the largest input that is taken.
fn large_inputs() -> Vec<Bytes> {
    let mut many = vec![[PLACE + 1, 0, DEVICE]; 8191];
    many.push(ONE);
    vec![
        ("65,537 bytes of a file, then a claim: 9", [large(LARGEST + 1), bytes(&[ONE])].concat()),
        ("65,536 bytes of a file, then 8,192 claims: 262,144 bytes", [large(LARGEST), bytes(&many)].concat()),
    ]
}

pub fn edges() -> Vec<Named> {
    let said = |(name, order, claims): Said| (name.into(), input(&order, &claims));
    let byte = |(name, input): Bytes| (name.into(), input);
    let mut all: Vec<Named> = Vec::new();
    all.extend([rows(), edges_of_an_area(), several_areas(), the_top()].concat().into_iter().map(said));
    all.extend(kinds());
    all.extend([nearly_full_maps(), full_tables(), files(), refused_files()].concat().into_iter().map(said));
    all.extend([left_over(), ends(), large_inputs()].concat().into_iter().map(byte));
    all
}
