//! "The check", by boundary points: claims are constant between two neighbouring
//! points, so the lowest address with a clash is one of the points.

use crate::answer::{Fault, Kind};
use crate::claims::{bridges_on, bus_claims, Claim};
use crate::machine::Machine;
use crate::windows::{Address, Ends, VGA_IO_HIGH, VGA_IO_LOW, VGA_MEMORY};

/// "It passes, or shows the first bus and kind with a clash": "Buses in order (root,
/// then bridges by number); in each, configuration ..., memory, I/O."
pub fn check(machine: &Machine) -> Option<Fault> {
    let kinds = [Kind::Config, Kind::Memory, Kind::Io];
    for bus in machine.rack().buses() {
        for kind in kinds {
            let fault = check_bus(machine, bus, kind);
            if fault.is_some() {
                return fault;
            }
        }
    }
    None
}

/// The fault of one bus and kind, if there is one.
pub fn check_bus(machine: &Machine, bus: u8, kind: Kind) -> Option<Fault> {
    match kind {
        Kind::Config => config_fault(machine, bus),
        Kind::Memory | Kind::Io => {
            let claims = bus_claims(machine, bus);
            let mut points = points(&claims, kind).into_iter();
            points.find_map(|value| fault_at(&claims, bus, kind, value))
        }
    }
}

/// "configuration (driver the holder, bus numbers 1 to 255)"
fn config_fault(machine: &Machine, bus: u8) -> Option<Fault> {
    let bridges = bridges_on(machine, bus);
    (1..=255u8).find_map(|number| {
        let mut claiming = bridges.iter().filter(|(_, numbers)| numbers.hold(number));
        let claimants = (claiming.next()?.0, claiming.next()?.0);
        let value = u64::from(number);
        Some(Fault { holder: bus, kind: Kind::Config, value, driver: bus, claimants })
    })
}

/// The address of that kind and value; there is no I/O address above 32 bits.
fn address_of(kind: Kind, value: u64) -> Option<Address> {
    match kind {
        Kind::Memory => Some(Address::Memory(value)),
        Kind::Io => u32::try_from(value).ok().map(Address::Io),
        Kind::Config => None,
    }
}

/// The fault at one address on a bus with these claims: "the first driver, and the first
/// two claimants in agent order. Every agent counts as a driver, whatever its command
/// bits." Of held nodes there are no claims here: "The check counts no held node as claimant or
/// driver".
pub fn fault_at(claims: &[(u8, Claim)], bus: u8, kind: Kind, value: u64) -> Option<Fault> {
    let address = address_of(kind, value)?;
    let claiming = claims.iter().filter(|(_, claim)| claim.holds(address));
    // A driver takes away one claimant at most, so that the first three are enough.
    let mut first_three = [None; 3];
    first_three.iter_mut().zip(claiming).for_each(|(place, (agent, _))| *place = Some(*agent));
    first_three[1]?; // nobody or one agent claims, whoever drives
    claims.iter().find_map(|(driver, _)| {
        // "An agent never claims what it drives on that bus."
        let mut others = first_three.into_iter().flatten().filter(|agent| agent != driver);
        let claimants = (others.next()?, others.next()?);
        Some(Fault { holder: bus, kind, value, driver: *driver, claimants })
    })
}

/// Every address on a bus with these claims at which some claim can change, in ascending
/// order: 0, and of each range the first address and the one after the last.
pub fn points(claims: &[(u8, Claim)], kind: Kind) -> Vec<u64> {
    let ranges = match kind {
        Kind::Memory => memory_ranges(claims),
        Kind::Io => io_ranges(claims),
        Kind::Config => Vec::new(),
    };
    let mut points = vec![0];
    for ends in ranges {
        points.push(ends.first);
        points.extend(ends.last.checked_add(1));
    }
    points.sort_unstable();
    points.dedup();
    points
}

/// Ranges such that a claim of memory can change only at their ends. A bridge's claims on
/// the secondary bus change where those on the primary bus do.
fn memory_ranges(claims: &[(u8, Claim)]) -> Vec<Ends> {
    let mut ranges = Vec::new();
    for (_, claim) in claims {
        match claim {
            Claim::Host(memory) => ranges.push(*memory),
            Claim::Primary(_, windows) | Claim::Secondary(_, windows) => {
                ranges.extend([windows.memory, windows.prefetchable]);
                ranges.extend(windows.vga.then_some(VGA_MEMORY));
            }
            Claim::Device(_, regions) => ranges.extend(regions_of_kind(regions, false)),
            Claim::Nothing => {}
        }
    }
    ranges
}

/// The same for I/O.
fn io_ranges(claims: &[(u8, Claim)]) -> Vec<Ends> {
    let mut ranges = Vec::new();
    let (mut isa, mut vga) = (false, false);
    for (_, claim) in claims {
        match claim {
            Claim::Primary(_, windows) | Claim::Secondary(_, windows) => {
                ranges.push(windows.io);
                isa |= windows.isa;
                vga |= windows.vga;
            }
            Claim::Device(_, regions) => ranges.extend(regions_of_kind(regions, true)),
            // The host claims no I/O.
            Claim::Host(_) | Claim::Nothing => {}
        }
    }
    // Both rules repeat every 400h "below 10000h", in all bridges at the same places.
    for start in (0..0x10000).step_by(0x400) {
        let shifted = |ends: Ends| Ends { first: start + ends.first, last: start + ends.last };
        if isa {
            ranges.push(shifted(Ends { first: 0x100, last: 0x3FF }));
        }
        if vga {
            ranges.extend([shifted(VGA_IO_LOW), shifted(VGA_IO_HIGH)]);
        }
    }
    ranges
}

/// A device's regions that are I/O, or those that are not.
fn regions_of_kind(
    regions: &[Option<(bool, Ends)>; 3],
    io: bool,
) -> impl Iterator<Item = Ends> + '_ {
    regions.iter().flatten().filter(move |(is_io, _)| *is_io == io).map(|(_, ends)| *ends)
}
