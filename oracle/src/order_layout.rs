//! Edits of an order file that break its layout, or come close to it. They take a file that keeps it.
use crate::order_file::{FLAGS, HEAD, HIGH, LARGEST, LIST_COUNT, LOW, TREE_LENGTH, VERSION, ZEROS};

/// A name, and an edit of the file's bytes.
pub type Edit = (&'static str, fn(&mut Vec<u8>));

/// After each of these the file breaks its layout, whatever it was.
pub const BREAKS: [Edit; 33] = [
    ("layout: no G", |file| file[0] = b'g'),
    ("layout: no B", |file| file[1] = 0),
    ("layout: no O", |file| file[2] = b'0'),
    ("layout: version 0", |file| file[VERSION] = 0),
    ("layout: version 2", |file| file[VERSION] = 2),
    ("layout: version 0x100", |file| file[VERSION..FLAGS].copy_from_slice(&[0, 1])),
    ("layout: version 0x101", |file| file[VERSION + 1] = 1),
    ("layout: flag 8", |file| file[FLAGS] |= 8),
    ("layout: flag 16", |file| file[FLAGS] |= 16),
    ("layout: flag 32", |file| file[FLAGS] |= 32),
    ("layout: flag 64", |file| file[FLAGS] |= 64),
    ("layout: flag 128", |file| file[FLAGS] |= 128),
    ("layout: low not flagged, lowest byte not 0", |file| unflagged(file, 2, LOW)),
    ("layout: low not flagged, highest byte not 0", |file| unflagged(file, 2, LOW + 7)),
    ("layout: high not flagged, lowest byte not 0", |file| unflagged(file, 4, HIGH)),
    ("layout: high not flagged, highest byte not 0", |file| unflagged(file, 4, HIGH + 7)),
    ("layout: byte 108 not 0", |file| file[ZEROS] = 1),
    ("layout: byte 109 not 0", |file| file[ZEROS + 1] = 0x10),
    ("layout: byte 110 not 0", |file| file[ZEROS + 2] = 1),
    ("layout: byte 111 not 0", |file| file[ZEROS + 3] = 0x80),
    ("layout: a byte fewer", |file| file.truncate(file.len() - 1)),
    ("layout: a byte more", |file| file.push(0)),
    ("layout: an entry more", |file| file.extend([0; 24])),
    ("layout: list count one more", |file| add(&mut file[LIST_COUNT..LIST_COUNT + 2], 1)),
    ("layout: list count one fewer", |file| add(&mut file[LIST_COUNT..LIST_COUNT + 2], -1)),
    ("layout: list count 256 more", |file| add(&mut file[LIST_COUNT + 1..LIST_COUNT + 2], 1)),
    ("layout: tree length one more", |file| add(&mut file[TREE_LENGTH..ZEROS], 1)),
    ("layout: tree length one fewer", |file| add(&mut file[TREE_LENGTH..ZEROS], -1)),
    ("layout: tree length 2^31 more", |file| file[ZEROS - 1] ^= 0x80),
    ("layout: no bytes", |file| file.clear()),
    ("layout: one byte", |file| file.truncate(1)),
    ("layout: 111 bytes", |file| file.truncate(HEAD - 1)),
    ("layout: 65,537 bytes, right but for that", |file| grow(file, LARGEST + 1)),
];

/// These keep the layout, and give it another meaning.
pub const KEEPS: [Edit; 4] = [
    ("layout: an entry taken from the tree", |file| shift(file, 1)),
    ("layout: an entry left to the tree", |file| shift(file, -1)),
    ("layout: 112 bytes", |file| {
        file.truncate(HEAD);
        file[LIST_COUNT..LIST_COUNT + 2].fill(0);
        file[TREE_LENGTH..ZEROS].fill(0);
    }),
    ("layout: 65,536 bytes", |file| grow(file, LARGEST)),
];

/// Takes a flag from a limit that has this byte, which is then not 0.
fn unflagged(file: &mut [u8], flag: u8, byte: usize) {
    file[FLAGS] &= !flag;
    file[byte] |= 1;
}

/// Adds to the number in some bytes, the lowest first, and drops what does not fit.
fn add(bytes: &mut [u8], more: i64) {
    let mut word = [0; 8];
    word[..bytes.len()].copy_from_slice(bytes);
    let sum = i64::from_le_bytes(word).wrapping_add(more).to_le_bytes();
    bytes.copy_from_slice(&sum[..bytes.len()]);
}

fn count(file: &[u8]) -> usize {
    u16::from_le_bytes([file[LIST_COUNT], file[LIST_COUNT + 1]]).into()
}

/// Makes the list longer by entries that the tree loses, or shorter by those that it gains, where there are such.
fn shift(file: &mut [u8], entries: i64) {
    let tree = file.len() - HEAD - 24 * count(file);
    if if entries > 0 { tree >= 24 } else { count(file) > 0 } {
        add(&mut file[LIST_COUNT..LIST_COUNT + 2], entries);
        add(&mut file[TREE_LENGTH..ZEROS], -24 * entries);
    }
}

/// Brings a file to so many bytes, which are not fewer than it has, by entries of kind Null behind those that it has,
/// and by bytes behind its tree where these do not fill it.
pub fn grow(file: &mut Vec<u8>, bytes: usize) {
    let (entries, rest) = ((bytes - file.len()) / 24, (bytes - file.len()) % 24);
    let end = HEAD + 24 * count(file);
    file.splice(end..end, vec![0; 24 * entries]);
    file.resize(bytes, 0);
    add(&mut file[LIST_COUNT..LIST_COUNT + 2], entries as i64);
    add(&mut file[TREE_LENGTH..ZEROS], rest as i64);
}
