//! The Rust's whole build of an order file: every source, in its order, and then the areas, in one call of `init`.
use crate::cases::{IDENTITY_MAP, KERNEL};
use crate::memory::AREA_COUNT;
use crate::order_file::OrderFile;
use crate::rust::{self, Claim, Heard, MAP_FULL, NO_LIST, Stop, hearing, init_into, lent, whole_words};
use crate::startup::KernelArgs;
use crate::startup::original::{held, hold};
use rmm::{MemoryArea, PhysicalAddress};

/// The slots that the program lends: as many as a map has entries.
pub const SLOTS: usize = 512;

const PAIR_KINDS: [u64; 5] = [KERNEL, IDENTITY_MAP, IDENTITY_MAP, IDENTITY_MAP, IDENTITY_MAP];

/// All registrations of an order file whose tree makes these claims, in the order of document 01.
pub fn registrations(order: &OrderFile, tree: &[Heard]) -> Vec<Claim> {
    let pairs = order.pairs.iter().zip(PAIR_KINDS).map(|(&[base, size], kind)| [base, size, kind]);
    order.list.iter().copied().chain(tree.iter().map(|(claim, _)| *claim)).chain(pairs).collect()
}

/// What the kernel is handed. The list and the tree are lent, and must outlive the call.
pub fn kernel_args(order: &OrderFile, tree: &[u32]) -> KernelArgs {
    let [kernel, env, hwdesc, bootstrap, stack] = order.pairs;
    KernelArgs {
        kernel_base: kernel[0],
        kernel_size: kernel[1],
        env_base: env[0],
        env_size: env[1],
        hwdesc_base: hwdesc[0],
        hwdesc_size: hwdesc[1],
        bootstrap_base: bootstrap[0],
        bootstrap_size: bootstrap[1],
        stack_base: stack[0],
        stack_size: stack[1],
        areas_base: if order.list.is_empty() { NO_LIST } else { order.list.as_ptr() as u64 },
        areas_size: size_of_val(&order.list[..]) as u64,
        tree: lent(tree),
    }
}

/// The areas from the empty map, base and size of each, or that the map is full. The kinds in the list must be known,
/// and the tree must make these claims. The map is left as the Rust leaves it.
pub fn build(order: &OrderFile, tree: &[Heard]) -> Result<Vec<[u64; 2]>, u64> {
    let words = whole_words(&order.tree);
    let args = kernel_args(order, &words);
    let mut areas = [MemoryArea { base: PhysicalAddress::new(0), size: 0 }; SLOTS];
    hold(&[]);
    let (stop, heard) = hearing(order.arm, true, || init_into(&mut areas, &args, order.low, order.high));
    assert!(tree.starts_with(&heard), "the claims differ from one call to the next");
    match stop {
        Some(Stop::Mapper) => {
            assert_eq!(tree.len(), heard.len(), "not all claims were made");
            let count = usize::from(unsafe { AREA_COUNT.get().read() });
            assert!(count <= held().len(), "more areas than entries");
            Ok(areas[..count].iter().map(|area| [area.base.data() as u64, area.size as u64]).collect())
        }
        Some(Stop::MapFull) => Err(MAP_FULL),
        // A full table, too: with as many slots as entries there is always one left.
        stop => unreachable!("{stop:?}"),
    }
}

/// Which registration is refused where they are made one by one, from the empty map.
pub fn refused(claims: &[Claim]) -> Option<usize> {
    hold(&[]);
    claims.iter().position(|claim| rust::register_only(*claim) != rust::DONE)
}
