//! Ours, in place of rmm's file: only what the boot memory map names.
use crate::{PhysicalAddress, VirtualAddress};
use core::num::NonZeroU8;

pub trait Arch: Copy {
    const PAGE_SHIFT: usize;
    const PAGE_SIZE: usize = 1 << Self::PAGE_SHIFT;
    const PAGE_ENTRY_SHIFT: usize = 9;

    fn entry_flag_large(_level: NonZeroU8) -> Option<usize> {
        None
    }

    fn phys_to_virt(phys: PhysicalAddress) -> VirtualAddress {
        VirtualAddress::new(phys.data())
    }
}
