// A memory read over k bridges in a rack of 96 nodes: the proved routes beside a plain Rust loop over the same rack, in one run.
mod table;

use table::{best, u16_at, u32_at, Rack};

extern "C" {
    fn bench_route(
        table: *const u64, bridges: *mut u8, bridges_len: usize, devices: *mut u8, devices_len: usize,
        initiator: u8, address: u64,
    ) -> u64;
}

// The same question in plain Rust.
struct Plain(Rack);

impl Plain {
    fn in_windows(&self, i: usize, a: u64) -> bool {
        let p = self.0.part(i);
        let memory = (u16_at(p, 0x20) / 16) << 20 <= a && a <= ((u16_at(p, 0x22) / 16) << 20 | 0xF_FFFF);
        let base = u32_at(p, 0x28) << 32 | (u16_at(p, 0x24) / 16) << 20;
        let limit = u32_at(p, 0x2c) << 32 | (u16_at(p, 0x26) / 16) << 20 | 0xF_FFFF;
        memory || base <= a && a <= limit || p[0x3e] & 8 != 0 && (0xA0000..=0xBFFFF).contains(&a)
    }

    fn region(&self, i: usize, a: u64) -> Option<usize> {
        let p = self.0.part(i);
        (0..3).find(|&r| {
            let (kind, e) = self.0.nodes[i].regions[r];
            let value = match kind {
                2 => u32_at(p, 16 + 8 * r),
                3 => u32_at(p, 20 + 8 * r) << 32 | u32_at(p, 16 + 8 * r),
                _ => return false,
            };
            value >> e == a >> e
        })
    }

    fn claims(&self, bus: u8, g: u8, a: u64) -> bool {
        let i = g as usize;
        let command = self.0.part(i)[4];
        if self.0.nodes[i].bridge {
            if g == bus { command & 4 != 0 && !self.in_windows(i, a) } else { command & 2 != 0 && self.in_windows(i, a) }
        } else {
            command & 2 != 0 && self.region(i, a).is_some()
        }
    }

    // crossings, plus 1000 times the owner's number plus one
    fn bus(&self, bus: u8, driver: u8, a: u64) -> u64 {
        let mut found = None;
        let mut more = false;
        let holder = (bus != 255 && bus != driver && self.claims(bus, bus, a)).then_some(bus);
        let nodes = (0..self.0.nodes.len() as u8)
            .filter(|&g| self.0.nodes[g as usize].parent == bus && g != driver && self.claims(bus, g, a));
        for g in holder.into_iter().chain(nodes) {
            if found.is_some() {
                more = true;
                break;
            }
            found = Some(g);
        }
        match found {
            Some(g) if !more && self.0.nodes[g as usize].bridge => {
                let other = if g == bus { self.0.nodes[g as usize].parent } else { g };
                self.bus(other, g, a) + 1
            }
            Some(g) if !more => 1000 * (g as u64 + 1),
            _ => 0,
        }
    }
}

// 32 bridges in a row with the window open along the first `deep`, and 64 devices; one below the deepest of these is read
fn rack(deep: usize) -> Rack {
    let mut r = Rack::row(32);
    for (i, p) in r.bridges.chunks_mut(64).enumerate() {
        p[4] = 6;
        let (base, limit) = if i < deep { (0x8000u16, 0x8000u16) } else { (0xFFF0, 0x0010) };
        p[0x20..0x22].copy_from_slice(&base.to_le_bytes());
        p[0x22..0x24].copy_from_slice(&limit.to_le_bytes());
        p[0x24..0x28].copy_from_slice(&[0xF1, 0xFF, 0x01, 0x00]);
    }
    for (d, p) in r.devices.chunks_mut(64).enumerate() {
        p[4] = 6;
        let base: u32 = if d == 2 * deep - 1 { 0x8000_0000 } else { 0x9000_0000 + 0x1000 * d as u32 };
        p[0x10..0x14].copy_from_slice(&base.to_le_bytes());
    }
    r
}

fn main() {
    let rounds = 20_000u16;
    println!("a memory read over        proved ns  plain Rust ns  ratio");
    for deep in [1usize, 8, 32] {
        let r = rack(deep);
        let table = r.table();
        let (mut bridges, mut devices) = (r.bridges.clone(), r.devices.clone());
        let plain = Plain(r);
        let address = std::hint::black_box(0x8000_0010);
        let (slow, a) = best(|| (0..rounds).fold(0, |_, _| std::hint::black_box(&plain).bus(255, 255, address)));
        let (proved, c) = best(|| {
            (0..rounds).fold(0, |_, _| unsafe {
                bench_route(table.as_ptr(), bridges.as_mut_ptr(), 2048, devices.as_mut_ptr(), 4096, 255, address)
            })
        });
        assert_eq!(a, c, "the two answers differ over {deep} bridges");
        let ns = 1e9 / rounds as f64;
        println!("{deep:2} bridges                {:10.0}  {:13.0}  {:5.2}", proved * ns, slow * ns, proved / slow);
    }
}
