//! What the unchanged memory.rs and dtb/mod.rs lean on, as far as they name it, and the files themselves.

pub mod arch {
    #[derive(Clone, Copy)]
    pub struct CurrentRmmArch;

    impl rmm::Arch for CurrentRmmArch {
        const PAGE_SHIFT: usize = 12;
    }
}

pub mod memory {
    use core::cell::{Cell, SyncUnsafeCell};
    use rmm::MemoryArea;

    pub const PAGE_SIZE: usize = 4096;

    /// The kernel's table is an array in a static. This one is lent for a build, so that it can have any length.
    pub struct LentAreas(Cell<*mut [MemoryArea]>);

    // The harness has one thread.
    unsafe impl Sync for LentAreas {}

    impl LentAreas {
        pub fn lend(&self, areas: *mut [MemoryArea]) {
            self.0.set(areas);
        }
        pub fn get(&self) -> *mut [MemoryArea] {
            self.0.get()
        }
    }

    pub static AREAS: LentAreas = LentAreas(Cell::new(&mut []));
    pub static AREA_COUNT: SyncUnsafeCell<u16> = SyncUnsafeCell::new(0);

    pub fn areas() -> &'static [MemoryArea] {
        unsafe { &(&*AREAS.get())[..AREA_COUNT.get().read().into()] }
    }
}

pub mod startup {
    pub mod original {
        include!("original/memory.rs");

        // What the harness needs of the file's private items.
        use crate::stubs::NonZeroPosition as _;

        pub fn kind_of(number: u64) -> Option<BootloaderMemoryKind> {
            use BootloaderMemoryKind::*;
            [Null, Free, Reclaim, Reserved, Kernel, Device, IdentityMap]
                .into_iter()
                .find(|kind| *kind as u64 == number)
        }

        /// The held entries in order: start, end, kind.
        pub fn held() -> Vec<[u64; 3]> {
            let map = unsafe { &*MEMORY_MAP.get() };
            map.iter().map(|e| [e.start as u64, e.end as u64, e.kind as u64]).collect()
        }

        /// What the held map lists: free, non_free, devices, identity_mapped, and kernel, of one entry at most.
        pub fn listings() -> [Vec<[u64; 3]>; 5] {
            fn of<'a>(entries: impl Iterator<Item = &'a MemoryEntry>) -> Vec<[u64; 3]> {
                entries.map(|e| [e.start as u64, e.end as u64, e.kind as u64]).collect()
            }
            let map = unsafe { &*MEMORY_MAP.get() };
            let kernel = of(map.kernel().into_iter());
            [of(map.free()), of(map.non_free()), of(map.devices()), of(map.identity_mapped()), kernel]
        }

        /// Makes the map hold these entries.
        pub fn hold(entries: &[[u64; 3]]) {
            let map = unsafe { &mut *MEMORY_MAP.get() };
            map.size = entries.len();
            for (slot, &[start, end, kind]) in map.entries.iter_mut().zip(entries) {
                let kind = kind_of(kind).expect("a held kind");
                *slot = MemoryEntry { start: start as usize, end: end as usize, kind };
            }
        }

        /// Hands over a bootloader list of so many bytes. The kinds in it must be known.
        pub fn register_list(list: &[u64], bytes: usize) {
            assert!(bytes <= size_of_val(list));
            register_bootloader_areas(list.as_ptr() as usize, bytes);
        }

        /// All sources of the kernel's own, in their order.
        pub fn register_sources(args: &KernelArgs) {
            register_memory_from_kernel_args(args);
        }
    }

    /// What dtb/mod.rs knows by this name: the file, with the harness listening to each call.
    pub mod memory {
        pub use super::original::*;

        #[track_caller]
        pub fn register_memory_region(base: usize, size: usize, kind: BootloaderMemoryKind) {
            let line = core::panic::Location::caller().line();
            if crate::rust::hear([base as u64, size as u64, kind as u64], line) {
                super::original::register_memory_region(base, size, kind);
            }
        }
    }

    #[derive(Default)]
    pub struct KernelArgs {
        pub kernel_base: u64,
        pub kernel_size: u64,
        pub stack_base: u64,
        pub stack_size: u64,
        pub env_base: u64,
        pub env_size: u64,
        pub hwdesc_base: u64,
        pub hwdesc_size: u64,
        pub areas_base: u64,
        pub areas_size: u64,
        pub bootstrap_base: u64,
        pub bootstrap_size: u64,
        pub tree: &'static [u32],
    }

    impl KernelArgs {
        /// As in startup/mod.rs, but that the tree has a place of its own. There it stands at `hwdesc`, which the
        /// build registers too.
        pub fn dtb(&self) -> Result<(crate::dtb::Fdt<'static>, &'static [u8]), fdt::FdtError> {
            if self.tree.is_empty() {
                return Err(fdt::FdtError::BadPtr);
            }
            fdt::Fdt::new(self.tree).map(|tree| (tree, self.tree_bytes()))
        }

        pub fn tree_bytes(&self) -> &'static [u8] {
            unsafe { core::slice::from_raw_parts(self.tree.as_ptr().cast(), size_of_val(self.tree)) }
        }
    }
}

pub mod dtb {
    include!("original/dtb/mod.rs");

    /// A node and all below it, in document order.
    fn in_order<'a>(node: FdtNode<'a>, all: &mut Vec<FdtNode<'a>>) {
        all.push(node);
        for child in node.children() {
            in_order(child, all);
        }
    }

    /// Where the first `reg` entry of each node leads, the root first, in document order; and how many nodes the Rust
    /// tried: it asks for the ids of the node and of the target.
    pub fn translations(tree: &Fdt) -> Vec<Option<(usize, usize)>> {
        use core::sync::atomic::Ordering::Relaxed;
        let mut all = Vec::new();
        in_order(tree.find_node("/").expect("a root"), &mut all);
        let first = |node: &FdtNode| node.reg()?.iter::<usize, usize>().next()?.ok();
        let translated = |node: &FdtNode| {
            fdt::nodes::ASKED.store(0, Relaxed);
            let address = translate_mmio_address(tree, node, &first(node)?)?;
            Some((address, fdt::nodes::ASKED.load(Relaxed) / 2))
        };
        all.iter().map(translated).collect()
    }
}

#[allow(non_snake_case)]
pub mod kernel_executable_offsets {
    pub fn __text_start() -> usize {
        0
    }
    pub fn __text_end() -> usize {
        0
    }
    pub fn __rodata_start() -> usize {
        0
    }
    pub fn __rodata_end() -> usize {
        0
    }
    pub fn KERNEL_OFFSET() -> usize {
        0
    }
}

pub mod devices {
    pub mod graphical_debug {
        pub struct Unlocked((usize, usize, usize));

        impl Unlocked {
            pub fn lock(&self) -> &(usize, usize, usize) {
                &self.0
            }
        }

        pub static FRAMEBUFFER: Unlocked = Unlocked((0, 0, 0));
    }
}

/// The kernel's toolchain can step through a range of NonZeroU8, and ours cannot. Only `map_memory` does, past
/// the point where the harness stops it.
pub trait NonZeroPosition {
    fn position(self, found: impl FnMut(core::num::NonZeroU8) -> bool) -> Option<usize>;
}

impl NonZeroPosition for core::ops::Range<core::num::NonZeroU8> {
    fn position(self, found: impl FnMut(core::num::NonZeroU8) -> bool) -> Option<usize> {
        (self.start.get()..self.end.get()).filter_map(core::num::NonZeroU8::new).position(found)
    }
}
