//! Random numbers from a seed (SplitMix64), and requests of them. Each test uses what it needs.
#![allow(dead_code)]

use visorlongan::{Request, Scissor};

pub struct Random(pub u64);

impl Random {
    pub fn next(&mut self) -> u64 {
        self.0 = self.0.wrapping_add(0x9e37_79b9_7f4a_7c15);
        let z = (self.0 ^ self.0 >> 30).wrapping_mul(0xbf58_476d_1ce4_e5b9);
        let z = (z ^ z >> 27).wrapping_mul(0x94d0_49bb_1331_11eb);
        z ^ z >> 31
    }

    /// A number from `low` to `high`.
    pub fn from(&mut self, low: i64, high: i64) -> i64 {
        low + (self.next() % (high - low + 1) as u64) as i64
    }

    /// True once in n times.
    pub fn once_in(&mut self, n: u64) -> bool {
        self.next() % n == 0
    }

    pub fn fill(&mut self, bytes: &mut [u8]) {
        bytes.fill_with(|| self.next() as u8);
    }

    /// Random bytes, of which some are an object that passes most of the checks.
    pub fn object(&mut self) -> Vec<u8> {
        let lengths = [0, 1, 2, 35, 36, 39, 40, 41, 60, 61, 62, 1_000];
        let mut bytes = vec![0; lengths[self.next() as usize % lengths.len()]];
        self.fill(&mut bytes);
        if bytes.len() >= 36 && !self.once_in(4) {
            let numbers = [
                self.from(0, 4),
                self.from(0, 3),
                0,
                self.from(0, 255),
                0,
                self.from(0, 1),
            ];
            bytes[20..22].copy_from_slice(&[255, 244]);
            bytes[22..28].copy_from_slice(&numbers.map(|number| number as u8));
            for at in [2, 6, 10, 14] {
                bytes[at] &= 15;
            }
            bytes[4] = 0;
            bytes[12] = 0;
        }
        if bytes.len() >= 40 && self.once_in(2) {
            let tmem_h = self.from(4, 255) as u8;
            bytes[30..40].copy_from_slice(&[0, tmem_h, 0, tmem_h, 0, 0, 0, 1, 0, 0]);
        }
        bytes
    }

    /// A request that is mostly in range, and now and then refused.
    pub fn request<'a>(&mut self, object: &'a [u8]) -> Request<'a> {
        let wild = self.once_in(4);
        let mut edge = |high| {
            if wild {
                self.next() as i32
            } else {
                self.from(0, high) as i32
            }
        };
        let scissor = Scissor::new(edge(30), edge(30), edge(1_023), edge(1_023));
        Request {
            object,
            opcode: if wild {
                self.next() as u8
            } else {
                self.from(9, 10) as u8
            },
            scissor,
            render_mode: self.next() as u32,
            address: u64::MAX - (self.next() >> self.from(0, 63)),
        }
    }
}
