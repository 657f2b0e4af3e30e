//! Random lists and requests, all from one seed.
use crate::reference::{List, Request};

pub struct Random(u64);

impl Random {
    pub fn new(seed: u64) -> Random {
        Random(seed.wrapping_mul(0x9e37_79b9_7f4a_7c15) | 1)
    }

    pub fn below(&mut self, n: usize) -> usize {
        self.0 ^= self.0 << 13;
        self.0 ^= self.0 >> 7;
        self.0 ^= self.0 << 17;
        ((self.0.wrapping_mul(0x2545_f491_4f6c_dd1d) >> 33) % n as u64) as usize
    }

    pub fn one_in(&mut self, n: usize) -> bool {
        self.below(n) == 0
    }

    fn size(&mut self) -> usize {
        match self.below(100) {
            0 => 0,
            1..=44 => 1 + self.below(7),
            45..=79 => 8 + self.below(9),
            80..=94 => 17 + self.below(16),
            95..=97 => 33 + self.below(31),
            _ => 64,
        }
    }

    /// Jobs around hidden slots, about as many as fit, so that some lists have a plan and some have none.
    pub fn list(&mut self) -> List {
        let n = self.size();
        let loose = if self.one_in(6) { self.below(6) } else { 0 };
        let (horizon, window) = match self.below(20_000) {
            0 => (4095, 1 + self.below(4096)),
            1..=100 => (40 + self.below(300), 1 + self.below(60)),
            _ => {
                let horizon = n / 2 + self.below(2) + loose;
                (horizon, 1 + self.below(horizon / 4 + 2))
            }
        };
        let all_at_once = self.one_in(3);
        let mut list = List::default();
        let mut hidden = vec![];
        for _ in 0..n {
            let slot = self.below(horizon.max(1));
            hidden.push(slot);
            let start = if all_at_once { 0 } else { slot.saturating_sub(self.below(window)) };
            list.starts.push(start as u16);
            list.deadlines.push((slot + 1 + self.below(window)).min(horizon + 1) as u16);
        }
        let share = self.below(30);
        for a in 0..n {
            for b in 0..n {
                if hidden[a] < hidden[b] && self.below(100) < share {
                    list.orders.push((a, b));
                }
            }
        }
        for k in (1..list.orders.len()).rev() {
            list.orders.swap(k, self.below(k + 1));
        }
        list
    }

    /// Some jobs later, and some due later, so that a list is late by much, or early.
    pub fn apart(&mut self, list: &mut List) {
        let by = if self.one_in(200) { self.below(4096) } else { self.below(8) } as u16;
        for (start, deadline) in list.starts.iter_mut().zip(&mut list.deadlines) {
            let (later, due_later) = (self.one_in(3), self.one_in(2));
            *start = (*start + by * later as u16).min(4095);
            *deadline = (*deadline + by * (later || due_later) as u16).min(4096);
        }
    }

    fn wild(&mut self) -> u16 {
        [0, 1, 63, 64, 255, 256, 4094, 4095, 4096, 4097, 32768, 65535][self.below(12)]
    }

    /// A request that often fits: `latest` are the times held.
    pub fn request(&mut self, horizon: usize, latest: &[u16]) -> Request {
        let n = latest.len();
        let unheld = self.one_in(12) || n == 0;
        let job = |r: &mut Random| r.below(n + unheld as usize) as u16;
        let asked = match self.below(if n < 2 { 2 } else { 6 }) {
            0..=2 => {
                let slot = self.below(horizon);
                let start = slot.saturating_sub(self.below(horizon)) as u16;
                Request::Job(start, (slot + 1 + self.below(horizon)).min(horizon) as u16)
            }
            3..=4 => Request::Before(job(self), job(self)),
            _ => {
                let j = job(self);
                let held = latest.get(j as usize).copied().unwrap_or(3);
                Request::Earlier(j, (held + 1).saturating_sub(self.below(4) as u16))
            }
        };
        match (self.one_in(25), asked) {
            (true, Request::Job(_, d)) if self.one_in(2) => Request::Job(self.wild(), d),
            (true, Request::Job(s, _)) => Request::Job(s, self.wild()),
            (true, Request::Before(a, _)) => Request::Before(a, self.wild()),
            (true, Request::Earlier(j, _)) if self.one_in(2) => Request::Earlier(j, self.wild()),
            (true, Request::Earlier(_, d)) => Request::Earlier(self.wild(), d),
            (false, asked) => asked,
        }
    }

    /// One cell of a book's rows changed, mostly one of a job held or of the next.
    pub fn damage(&mut self, times: &mut [u16], before: &mut [u64]) {
        let reach = if self.one_in(4) { 64 } else { (times[0] as usize + 1).min(64) };
        let job = self.below(reach);
        let cell = match self.below(8) {
            0 => &mut times[0],
            1..=2 => &mut times[1 + job],
            3..=5 => &mut times[65 + job],
            _ => return before[job] ^= 1 << self.below(reach),
        };
        *cell = match self.below(5) {
            0 => self.wild(),
            1..=2 => cell.wrapping_sub(1),
            _ => cell.wrapping_add(1),
        };
    }

    /// A file with some of its bytes changed, cut or added.
    pub fn damaged(&mut self, file: &[u8]) -> Vec<u8> {
        let mut bytes = file.to_vec();
        for _ in 0..self.below(4) {
            match self.below(4) {
                0 if !bytes.is_empty() => {
                    let at = self.below(bytes.len());
                    bytes[at] = self.below(256) as u8;
                }
                1 if !bytes.is_empty() => {
                    let at = self.below(bytes.len());
                    bytes[at] ^= 1 << self.below(8);
                }
                2 => bytes.truncate(bytes.len() - self.below(bytes.len().min(20) + 1)),
                _ => {
                    let more = self.below(14);
                    bytes.extend((0..more).map(|_| b"JBORTG\0\x01\x02\x10"[self.below(10)]));
                }
            }
        }
        bytes
    }
}
