// The check, by the proved sweep beside a plain Rust sweep over the same rack, in one run: of a full rack of 32 bridges and 64
// devices, clean and faulty; of 4 to 32 bridges, with ISA and without; of a bus of 3 to 16 agents.
mod table;

use table::{best, u16_at, u32_at, Node, Rack};

extern "C" {
    fn bench_check(
        table: *const u64, bridges: *const u8, bridges_len: usize, devices: *const u8, devices_len: usize, rounds: u8,
    ) -> u64;
}

// The same question in plain Rust.
struct Plain(Rack);

#[derive(Clone, Copy, PartialEq)]
enum Space {
    Configuration,
    Memory,
    Io,
}

#[derive(Clone, Copy)]
struct Windows {
    command: u8,
    control: u8,
    memory: (u64, u64),
    prefetchable: (u64, u64),
    io: (u64, u64),
    buses: (u64, u64),
}

#[derive(Clone, Copy)]
enum Agent {
    Primary(Windows),
    Secondary(Windows),
    Device { command: u8, areas: [(bool, u64, u64); 3] },
    Host,
}

fn cut(range: (u64, u64), a: u64, e: u64) -> u64 {
    if a < range.0 { e.min(range.0 - 1) } else if a <= range.1 { e.min(range.1) } else { e }
}

fn within(range: (u64, u64), a: u64) -> bool {
    range.0 <= a && a <= range.1
}

impl Windows {
    fn vga_io(&self, a: u64) -> bool {
        let low = a & 0x3FF;
        self.control & 8 != 0
            && a < 0x1_0000
            && (self.control & 16 == 0 || a >> 10 == 0)
            && ((0x3B0..=0x3BB).contains(&low) || (0x3C0..=0x3DF).contains(&low))
    }

    fn inside(&self, space: Space, a: u64) -> bool {
        match space {
            Space::Memory => {
                within(self.memory, a) || within(self.prefetchable, a) || self.control & 8 != 0 && within((0xA0000, 0xBFFFF), a)
            }
            Space::Io => within(self.io, a) && !(self.control & 4 != 0 && a < 0x1_0000 && a & 0x300 != 0) || self.vga_io(a),
            Space::Configuration => within(self.buses, a),
        }
    }

    // up to where the answer stays the same
    fn until(&self, space: Space, a: u64, e: u64) -> u64 {
        match space {
            Space::Memory => cut((0xA0000, 0xBFFFF), a, cut(self.prefetchable, a, cut(self.memory, a, e))),
            Space::Io => {
                let mut e = cut(self.io, a, e);
                if a < 0x1_0000 {
                    let b = a & !0x3FF;
                    if self.control & 4 != 0 {
                        e = cut((b, b + 0xFF), a, e.min(b + 0x3FF));
                    }
                    if self.control & 8 != 0 {
                        e = cut((b + 0x3B0, b + 0x3BB), a, cut((b + 0x3C0, b + 0x3DF), a, e.min(b + 0x3FF)));
                    }
                }
                e
            }
            Space::Configuration => cut(self.buses, a, e),
        }
    }
}

impl Agent {
    fn claims(&self, space: Space, a: u64) -> bool {
        match self {
            Agent::Primary(w) => match space {
                Space::Memory => w.command & 2 != 0 && w.inside(space, a),
                Space::Io => w.command & 1 != 0 && w.inside(space, a),
                Space::Configuration => w.inside(space, a),
            },
            Agent::Secondary(w) => space != Space::Configuration && w.command & 4 != 0 && !w.inside(space, a),
            Agent::Device { command, areas } => {
                let on = if space == Space::Io { command & 1 != 0 } else { command & 2 != 0 };
                space != Space::Configuration
                    && on
                    && areas.iter().any(|&(io, first, last)| io == (space == Space::Io) && within((first, last), a))
            }
            Agent::Host => false,
        }
    }

    fn until(&self, space: Space, a: u64, e: u64) -> u64 {
        match self {
            Agent::Primary(w) | Agent::Secondary(w) => w.until(space, a, e),
            Agent::Device { areas, .. } => areas.iter().fold(e, |e, &(_, first, last)| cut((first, last), a, e)),
            Agent::Host => e,
        }
    }
}

impl Plain {
    fn agent(&self, bus: u8, g: u8) -> Agent {
        if g == 255 {
            return Agent::Host;
        }
        let p = self.0.part(g as usize);
        let n = &self.0.nodes[g as usize];
        if n.bridge {
            let upper = |at: usize| (u32_at(p, at)) << 32;
            let w = Windows {
                command: p[4],
                control: p[0x3e],
                memory: ((u16_at(p, 0x20) / 16) << 20, (u16_at(p, 0x22) / 16) << 20 | 0xF_FFFF),
                prefetchable: (
                    upper(0x28) | (u16_at(p, 0x24) / 16) << 20,
                    upper(0x2c) | (u16_at(p, 0x26) / 16) << 20 | 0xF_FFFF,
                ),
                io: (
                    u16_at(p, 0x30) << 16 | (p[0x1c] as u64 / 16) << 12,
                    u16_at(p, 0x32) << 16 | (p[0x1d] as u64 / 16) << 12 | 0xFFF,
                ),
                buses: (p[0x19] as u64, p[0x1a] as u64),
            };
            if g == bus { Agent::Secondary(w) } else { Agent::Primary(w) }
        } else {
            let mut areas = [(false, 1, 0); 3];
            for (r, &(kind, e)) in n.regions.iter().enumerate() {
                let low = u32_at(p, 16 + 8 * r);
                let base = match kind {
                    1 | 2 => low >> e << e,
                    3 => (u32_at(p, 20 + 8 * r) << 32 | low) >> e << e,
                    _ => continue,
                };
                areas[r] = (kind == 1, base, base + ((1 << e) - 1));
            }
            Agent::Device { command: p[4], areas }
        }
    }

    // half of the value of the first fault, and one more; 0 for a pass
    fn check(&self) -> u64 {
        let bridges = (0..self.0.nodes.len()).filter(|&i| self.0.nodes[i].bridge).map(|i| i as u8);
        for bus in std::iter::once(255).chain(bridges) {
            let nodes = (0..self.0.nodes.len() as u8).filter(|&i| self.0.nodes[i as usize].parent == bus);
            let agents: Vec<Agent> = std::iter::once(bus).chain(nodes).map(|g| self.agent(bus, g)).collect();
            if agents.len() < 3 {
                continue;
            }
            for (space, first, last) in [(Space::Configuration, 1, 255), (Space::Memory, 0, u64::MAX), (Space::Io, 0, 0xFFFF_FFFF)] {
                let mut a = first;
                loop {
                    let mut claiming = 0;
                    let mut until = last;
                    for g in &agents {
                        claiming += g.claims(space, a) as u32;
                        until = g.until(space, a, until);
                    }
                    if claiming > 1 {
                        return a / 2 + 1;
                    }
                    if until >= last {
                        break;
                    }
                    a = until + 1;
                }
            }
        }
        0
    }
}

// one bridge on the root bus and devices below it, each with one 4 KiB region of memory
fn fan(devices: usize) -> Rack {
    let mut r = Rack { nodes: vec![], bridges: vec![0; 64], devices: vec![0; 64 * devices] };
    r.nodes.push(Node { bridge: true, parent: 255, number: 0, place: 0, regions: [(0, 0); 3] });
    for d in 0..devices {
        r.nodes.push(Node { bridge: false, parent: 0, number: d as u8, place: d, regions: [(2, 12), (0, 0), (0, 0)] });
    }
    r
}

// each bridge with a window inside the one above; ISA as asked for, VGA always
fn set(mut r: Rack, isa: bool, faulty: bool) -> Rack {
    let last = r.devices.len() / 64 - 1;
    for (i, p) in r.bridges.chunks_mut(64).enumerate() {
        p[4] = 7;
        p[0x18..0x1b].copy_from_slice(&[i as u8, i as u8 + 1, 255]);
        p[0x1c..0x1e].copy_from_slice(&[0x01, 0xF1]);
        p[0x20..0x22].copy_from_slice(&(0x8000 + 0x20 * i as u16).to_le_bytes());
        p[0x22..0x24].copy_from_slice(&0x8FF0u16.to_le_bytes());
        p[0x24..0x28].copy_from_slice(&[0xF1, 0xFF, 0x01, 0x00]);
        p[0x3e] = if isa { 12 } else { 8 };
    }
    for (d, p) in r.devices.chunks_mut(64).enumerate() {
        p[4] = 6;
        let other = if faulty && d == last { 0 } else { d % 2 };
        let base = 0x8000_0000u32 + 0x20_0000 * (d / 2) as u32 + 0x10_0000 * other as u32;
        p[0x10..0x14].copy_from_slice(&base.to_le_bytes());
    }
    r
}

fn measure(name: &str, r: Rack) {
    let rounds = 100u8;
    let table = r.table();
    let (bridges, devices) = (r.bridges.clone(), r.devices.clone());
    let mut plain = Plain(r);
    let (slow, a) = best(|| {
        let mut v = 0;
        for i in 0..rounds {
            plain.0.bridges[6] = i;
            v = std::hint::black_box(&plain).check();
        }
        v
    });
    let (proved, c) = best(|| unsafe {
        bench_check(table.as_ptr(), bridges.as_ptr(), bridges.len(), devices.as_ptr(), devices.len(), rounds)
    });
    assert_eq!(a, c, "the two answers differ: {name}");
    let us = 1e6 / rounds as f64;
    println!("{name:24}  {:10.1}  {:13.1}  {:5.2}", proved * us, slow * us, proved / slow);
}

fn main() {
    println!("a check of                proved us  plain Rust us  ratio");
    measure("32 bridges, clean", set(Rack::row(32), true, false));
    measure("32 bridges, last faulty", set(Rack::row(32), true, true));
    for n in [4, 8, 16, 32] {
        measure(&format!("{n} bridges, ISA"), set(Rack::row(n), true, false));
        measure(&format!("{n} bridges, no ISA"), set(Rack::row(n), false, false));
    }
    for n in [2, 4, 8, 15] {
        measure(&format!("a bus of {} agents, ISA", n + 1), set(fan(n), true, false));
    }
}
