//! "The program": runs events and prints their lines.

use std::io::{self, Write};

use crate::answer::Answer;
use crate::check::check;
use crate::file::{self, Contents};
use crate::machine::Machine;
use crate::rack::{Event, HOST};
use crate::route::{access_route, config_route, settle, Ending, Target};
use crate::seats;
use crate::windows::Address;

/// Where a run stands.
#[derive(Clone, Debug, PartialEq, Eq)]
pub struct Run {
    /// The rack and its registers.
    pub machine: Machine,
    /// The acting seat.
    pub seat: u8,
}

impl Run {
    /// "the run starts as seat 0, which may write all"; it "starts from these registers instead
    /// of reset", those of the register records. Or the number (6 to 10, 16 to 18) that refuses
    /// what no file holds.
    pub fn start(contents: &Contents) -> Result<Run, u8> {
        let machine = Machine::with_registers(contents.rack.clone(), &contents.registers)?;
        Ok(Run { machine, seat: seats::ALL })
    }

    /// Runs one event. "Event kind 10 (seat) says who acts from then on".
    pub fn step(&mut self, event: &Event) -> Answer {
        if let Event::Seat { seat } = *event {
            self.seat = seat;
        }
        run_event(&mut self.machine, self.seat, event)
    }
}

/// Runs one event that refusals 13 and 15 do not refuse, by that seat. A seat event changes
/// nothing here; who acts next is for the caller to say.
pub fn run_event(machine: &mut Machine, seat: u8, event: &Event) -> Answer {
    match *event {
        Event::ConfigWrite { bus, device_function, register, enables, data } => {
            let route = config_route(machine, bus, Target::of_write(device_function, register));
            if let Ending::Node(node) = route.ending {
                // "A write that reaches a register outside the grant ends as `denied` with its
                // crossings, and stores nothing".
                if !machine.rack().grants.allow(seat, node, register) {
                    return Answer::Denied { crossings: route.crossings.len() };
                }
                machine.write(node, register, enables, data);
            }
            settle(machine, &route, HOST, false)
        }
        Event::ConfigRead { bus, device_function, register } => {
            let route = config_route(machine, bus, Target::of_read(device_function));
            match route.ending {
                Ending::Node(node) => Answer::Data {
                    crossings: route.crossings.len(),
                    data: machine.read(node, register),
                },
                _ => settle(machine, &route, HOST, false),
            }
        }
        Event::Memory { initiator, direction, address } => {
            run_access(machine, initiator, Address::Memory(address), direction == 1)
        }
        Event::Io { initiator, address, .. } => {
            run_access(machine, initiator, Address::Io(address), false)
        }
        Event::Check => run_check(machine),
        Event::Seat { seat } => Answer::Seat { seat },
    }
}

/// A memory or I/O access. `posted` is whether it is a memory write.
fn run_access(machine: &mut Machine, initiator: u8, address: Address, posted: bool) -> Answer {
    match access_route(machine, initiator, address) {
        None => Answer::Silent,
        Some(route) => settle(machine, &route, initiator, posted),
    }
}

/// A check: "A check changes no register."
pub fn run_check(machine: &Machine) -> Answer {
    check(machine).map_or(Answer::Pass, Answer::Fault)
}

/// "reads a rack file ..., checks all of it, then runs it from reset", or from the registers it
/// holds. The lines go to `out`, each ended by one newline.
pub fn run(bytes: &[u8], out: &mut impl Write) -> io::Result<()> {
    let contents = match file::read(bytes) {
        Ok(contents) => contents,
        // "A refused input prints only `refused N at O`."
        Err(refused) => return writeln!(out, "{refused}"),
    };
    // What was read from a file has passed refusals 6 to 10 and 16 to 18.
    if let Ok(mut run) = Run::start(&contents) {
        let mut checked = None;
        for (number, event) in (1usize..).zip(&contents.events) {
            let answer = match event {
                Event::Check => check_again(&run.machine, &mut checked),
                _ => run.step(event),
            };
            writeln!(out, "{number} {answer}")?;
        }
    }
    Ok(())
}

/// A check, or the answer of the last one if no register has changed since: a file
/// may hold 64,000 checks in a row.
fn check_again(machine: &Machine, checked: &mut Option<(Machine, Answer)>) -> Answer {
    match checked {
        Some((before, answer)) if before == machine => *answer,
        _ => {
            let answer = run_check(machine);
            *checked = Some((machine.clone(), answer));
            answer
        }
    }
}
