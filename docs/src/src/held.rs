//! Secondary bus reset: which nodes are held. Text in quotes in this file is from request E5.
//!
//! Held is asked for wherever a node would claim, drive, be found or be written. That its registers
//! are those of reset is another matter, which refusal 18 looks after.

use crate::machine::control_bit;
use crate::rack::Rack;

/// Whether a bridge with these 64 bytes resets its secondary bus: "bit 6 of bridge control".
pub fn resets(part: &[u8]) -> bool {
    control_bit(part, 6)
}

/// Whether a node is held: a bridge somewhere above it has bit 6 set. `part` gives the 64 bytes of
/// a bridge.
pub fn is_held<'a>(rack: &Rack, node: u8, part: impl Fn(u8) -> &'a [u8]) -> bool {
    rack.bridges_above(node).any(|bridge| resets(part(bridge)))
}
