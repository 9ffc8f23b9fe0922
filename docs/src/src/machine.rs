//! A rack that passed refusals 6 to 10, with two images that passed 11, 12 and 18.

use crate::bytes::{put, u16_at};
use crate::rack::Rack;
use crate::registers::{Saved, PART};
use crate::{held, refuse, registers};

/// A side of a bridge; a device has only the primary one.
#[derive(Clone, Copy, Debug, PartialEq, Eq)]
pub enum Side {
    /// The bus the node sits on; register 06h, status.
    Primary,
    /// The bus below a bridge; register 1Eh, secondary status.
    Secondary,
}

/// Whether a bit of a register is set; there is none above 15.
fn bit_of(register: u16, bit: u8) -> bool {
    register.checked_shr(u32::from(bit)).unwrap_or(0) & 1 == 1
}

/// A bit of the command register at 04h of these 64 bytes.
pub(crate) fn command_bit(part: &[u8], bit: u8) -> bool {
    bit_of(u16_at(part, 0x04), bit)
}

/// A bit of the bridge control register at 3Eh of these 64 bytes.
pub(crate) fn control_bit(part: &[u8], bit: u8) -> bool {
    bit_of(u16_at(part, 0x3E), bit)
}

/// Rack and registers together.
#[derive(Clone, Debug, PartialEq, Eq)]
pub struct Machine {
    rack: Rack,
    /// Where each part begins in its image. Whether a node is held is asked often, and then for
    /// the parts of all bridges above it.
    starts: Vec<usize>,
    bridges: Vec<u8>,
    devices: Vec<u8>,
}

impl Machine {
    /// Rack and images that nothing refuses.
    fn new(rack: Rack, bridges: Vec<u8>, devices: Vec<u8>) -> Machine {
        Machine { starts: registers::part_starts(&rack), rack, bridges, devices }
    }

    /// The rack at reset, or the number (6 to 10) that refuses it.
    pub fn at_reset(rack: Rack) -> Result<Machine, u8> {
        let (bridges, devices) = match refuse::rack(&rack) {
            None => registers::reset_images(&rack),
            Some(number) => return Err(number),
        };
        Ok(Machine::new(rack, bridges, devices))
    }

    /// The rack with the registers of these records and else at reset, or the number (6 to 10, 16
    /// to 18) that refuses it.
    pub fn with_registers(rack: Rack, records: &[Saved]) -> Result<Machine, u8> {
        let mut machine = Machine::at_reset(rack)?;
        for (index, saved) in records.iter().enumerate() {
            let earlier = records.get(..index).unwrap_or(&[]);
            if let Some(number) = refuse::registers(&machine.rack, earlier, saved) {
                return Err(number);
            }
            put(machine.part_mut(saved.node), 0, &saved.part);
        }
        Ok(machine)
    }

    /// The rack with these images, or the number (6 to 12, 18) that refuses them.
    pub fn with_images(rack: Rack, bridges: &[u8], devices: &[u8]) -> Result<Machine, u8> {
        let number = refuse::rack(&rack).or_else(|| refuse::images(&rack, bridges, devices));
        match number {
            Some(number) => Err(number),
            None => Ok(Machine::new(rack, bridges.to_vec(), devices.to_vec())),
        }
    }

    /// The rack.
    pub fn rack(&self) -> &Rack {
        &self.rack
    }

    /// The bridges' image.
    pub fn bridges(&self) -> &[u8] {
        &self.bridges
    }

    /// The devices' image.
    pub fn devices(&self) -> &[u8] {
        &self.devices
    }

    /// A node's 64 bytes; empty if there is no such node.
    pub fn part(&self, node: u8) -> &[u8] {
        let start = self.starts.get(usize::from(node)).copied();
        let image = if self.is_bridge(node) { &self.bridges } else { &self.devices };
        start.and_then(|start| image.get(start..start + PART)).unwrap_or(&[])
    }

    fn part_mut(&mut self, node: u8) -> &mut [u8] {
        let start = self.starts.get(usize::from(node)).copied();
        let is_bridge = self.is_bridge(node);
        let image = if is_bridge { &mut self.bridges } else { &mut self.devices };
        start.and_then(|start| image.get_mut(start..start + PART)).unwrap_or(&mut [])
    }

    fn is_bridge(&self, node: u8) -> bool {
        self.rack.bridge(node).is_some()
    }

    /// Register read.
    pub fn read(&self, node: u8, register: u8) -> u32 {
        registers::read(self.part(node), register)
    }

    /// Register write, with what it does below a bridge; nothing happens if there is no such node.
    /// "On a held node a direct write stores nothing"; no other write finds one.
    pub fn write(&mut self, node: u8, register: u8, enables: u8, data: u32) {
        let Some(masks) = self.rack.node(node).map(registers::masks) else { return };
        if self.held(node) {
            return;
        }
        registers::write(self.part_mut(node), &masks, register, enables, data);
        // Below a bit that was set before, all is at reset already, so that nothing changes.
        if self.resets(node) {
            self.reset_below(node);
        }
    }

    /// "puts every node below back to reset registers", a bit 6 among them too; "only this write
    /// changes bytes outside its node's part".
    fn reset_below(&mut self, bridge: u8) {
        for node in self.rack.nodes_below(bridge) {
            if let Some(masks) = self.rack.node(node).map(registers::masks) {
                put(self.part_mut(node), 0, &masks.reset);
            }
        }
    }

    /// Whether a bridge has bit 6 set; no other node has that bit.
    pub fn resets(&self, bridge: u8) -> bool {
        self.is_bridge(bridge) && held::resets(self.part(bridge))
    }

    /// Whether a node is held.
    pub fn held(&self, node: u8) -> bool {
        held::is_held(&self.rack, node, |bridge| self.part(bridge))
    }

    /// Whether a bus is held: its holder has bit 6 set or is held. The root bus never is.
    pub fn bus_held(&self, bus: u8) -> bool {
        self.resets(bus) || self.held(bus)
    }

    /// The agents of a bus that are not held, in agent order: those that claim and drive there.
    pub fn free_agents(&self, bus: u8) -> Vec<u8> {
        self.rack.agents(bus).into_iter().filter(|agent| !self.held(*agent)).collect()
    }

    /// Sizing of a region; 0 if there is no such region. It works on the part itself and leaves it
    /// as it was, so that it "answers as before" on a held node.
    pub fn size(&mut self, node: u8, region: u8) -> u64 {
        match self.rack.node(node).copied() {
            Some(record) => registers::size(self.part_mut(node), &record, region),
            None => 0,
        }
    }

    /// A bit of a node's command register.
    pub fn command_bit(&self, node: u8, bit: u8) -> bool {
        command_bit(self.part(node), bit)
    }

    /// A bit of the bridge control register at 3Eh.
    pub fn control_bit(&self, bridge: u8, bit: u8) -> bool {
        control_bit(self.part(bridge), bit)
    }

    /// Sets one bit of a status register; "the host none", as it has no part.
    pub(crate) fn set_status_bit(&mut self, agent: u8, side: Side, bit: u8) {
        let two_sides = self.is_bridge(agent);
        let at = match side {
            Side::Primary => 0x06,
            Side::Secondary if two_sides => 0x1E,
            Side::Secondary => return,
        };
        let part = self.part_mut(agent);
        let status = u16_at(part, at) | 1u16.checked_shl(u32::from(bit)).unwrap_or(0);
        put(part, at, &status.to_le_bytes());
    }
}
