//! Both ends of a bridge's windows and of a device's region, and the windows' answers.

use crate::bytes::{u16_at, u32_at, u64_at, u8_at};
use crate::rack::{Options, Region};
use crate::registers::{bits_from, region_register};

/// An address of one of the two kinds that claims and routes speak of.
#[derive(Clone, Copy, Debug, PartialEq, Eq)]
pub enum Address {
    /// A memory address, 64 bits.
    Memory(u64),
    /// An I/O address, 32 bits.
    Io(u32),
}

/// Both ends of a range, inclusive; empty if `first` is above `last`.
#[derive(Clone, Copy, Debug, PartialEq, Eq)]
pub struct Ends {
    /// First address.
    pub first: u64,
    /// Last address.
    pub last: u64,
}

impl Ends {
    /// "Base above limit is an empty window."
    pub fn holds(&self, address: u64) -> bool {
        self.first <= address && address <= self.last
    }
}

/// "VGA enable (bit 3) adds memory A0000h to BFFFFh"
pub const VGA_MEMORY: Ends = Ends { first: 0xA0000, last: 0xBFFFF };
/// "I/O whose bits 9 to 0 lie in 3B0h to 3BBh"
pub const VGA_IO_LOW: Ends = Ends { first: 0x3B0, last: 0x3BB };
/// "or 3C0h to 3DFh"
pub const VGA_IO_HIGH: Ends = Ends { first: 0x3C0, last: 0x3DF };

/// A bridge's windows as its registers give them, as far as its options let them count.
#[derive(Clone, Copy, Debug, PartialEq, Eq)]
pub struct Windows {
    /// Memory base to limit.
    pub memory: Ends,
    /// Prefetchable base to limit.
    pub prefetchable: Ends,
    /// I/O base to limit.
    pub io: Ends,
    /// Bridge control bit 2.
    pub isa: bool,
    /// Bridge control bit 3.
    pub vga: bool,
    /// Bridge control bit 4; clear in a bridge without VGA 16-bit decode.
    pub vga_all_bits: bool,
}

/// "bits 15 to 4 giving address bits 31 to 20"
fn megabytes(register: u16) -> u64 {
    u64::from(register >> 4) << 20
}

/// "memory: base to limit, ..., limit filled with ones"
fn memory_ends(part: &[u8]) -> Ends {
    Ends { first: megabytes(u16_at(part, 0x20)), last: megabytes(u16_at(part, 0x22)) | 0xF_FFFF }
}

/// "prefetchable: the same with upper 32 bits, compared over 64 bits"; without 64-bit
/// addresses both upper halves are 0, so that the window lies below 4 GiB.
fn prefetchable_ends(part: &[u8], has_64_bits: bool) -> Ends {
    let upper = |at| if has_64_bits { u64::from(u32_at(part, at)) << 32 } else { 0 };
    Ends {
        first: upper(0x28) | megabytes(u16_at(part, 0x24)),
        last: upper(0x2C) | megabytes(u16_at(part, 0x26)) | 0xF_FFFF,
    }
}

/// "I/O: bits 7 to 4 give address bits 15 to 12, upper registers bits 31 to 16, limit
/// filled with ones"; with 16-bit I/O both upper halves are 0, so that "I/O at 10000h or
/// above is outside the window".
fn io_ends(part: &[u8], has_32_bits: bool) -> Ends {
    let lower = |at| u64::from(u8_at(part, at) >> 4) << 12;
    let upper = |at| if has_32_bits { u64::from(u16_at(part, at)) << 16 } else { 0 };
    Ends { first: upper(0x30) | lower(0x1C), last: upper(0x32) | lower(0x1D) | 0xFFF }
}

impl Windows {
    /// The windows of a bridge with these 64 bytes and options. The bytes of an option that
    /// the bridge lacks count as 0, whatever they hold.
    pub fn of(part: &[u8], options: Options) -> Windows {
        let control = u16_at(part, 0x3E);
        Windows {
            memory: memory_ends(part),
            prefetchable: prefetchable_ends(part, options.prefetchable_64),
            io: io_ends(part, options.io_32),
            isa: control >> 2 & 1 == 1,
            vga: control >> 3 & 1 == 1,
            vga_all_bits: options.vga_16 && control >> 4 & 1 == 1,
        }
    }

    /// Both ends of window 0 (memory), 1 (prefetchable) or 2 (I/O) as base and limit give
    /// them; none if it is empty. "Base above limit is an empty window."
    pub fn ends(&self, window: u8) -> Option<Ends> {
        let ends = match window {
            0 => self.memory,
            1 => self.prefetchable,
            2 => self.io,
            _ => return None,
        };
        Some(ends).filter(|ends| ends.first <= ends.last)
    }

    /// "With ISA enable (bridge control bit 2), addresses below 10000h whose bits 9
    /// to 8 are not 00 are cut out".
    fn isa_cuts(&self, address: u64) -> bool {
        self.isa && address < 0x10000 && address >> 8 & 0b11 != 0
    }

    /// "below 10000h, I/O whose bits 9 to 0 lie in 3B0h to 3BBh or 3C0h to 3DFh; with
    /// bit 4, bits 15 to 10 must be 0. ISA cuts nothing here."
    fn vga_io(&self, address: u64) -> bool {
        let low = address & 0x3FF;
        self.vga
            && address < 0x10000
            && (VGA_IO_LOW.holds(low) || VGA_IO_HIGH.holds(low))
            && !(self.vga_all_bits && address >> 10 != 0)
    }

    /// Whether a memory address lies in the windows.
    pub fn hold_memory(&self, address: u64) -> bool {
        self.memory.holds(address)
            || self.prefetchable.holds(address)
            || (self.vga && VGA_MEMORY.holds(address))
    }

    /// Whether an I/O address lies in the windows.
    pub fn hold_io(&self, address: u32) -> bool {
        let address = u64::from(address);
        (self.io.holds(address) && !self.isa_cuts(address)) || self.vga_io(address)
    }

    /// "A bridge's windows answer yes or no for an address".
    pub fn hold(&self, address: Address) -> bool {
        match address {
            Address::Memory(address) => self.hold_memory(address),
            Address::Io(address) => self.hold_io(address),
        }
    }
}

/// Both ends of region `index` (0 to 2) of a device with these 64 bytes, with whether
/// it is I/O; none for kind 0. "A region has 2 to the e bytes."
pub fn region_ends(part: &[u8], index: u8, region: &Region) -> Option<(bool, Ends)> {
    let at = usize::from(region_register(index));
    let low_bits = u64::from(!bits_from(region.exponent)); // bits below e
    let value = match region.kind {
        1 | 2 => u64::from(u32_at(part, at)),
        3 => u64_at(part, at),
        _ => return None,
    };
    let ends = Ends { first: value & !low_bits, last: value | low_bits };
    Some((region.kind == 1, ends))
}
