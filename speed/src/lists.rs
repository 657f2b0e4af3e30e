//! The lists that are measured, all from seeds.
use crate::engine;

#[derive(Clone)]
pub struct List {
    pub starts: Vec<u16>,
    pub deadlines: Vec<u16>,
    pub pairs: Vec<u16>,
}

struct Random(u64);

impl Random {
    fn below(&mut self, n: usize) -> usize {
        self.0 ^= self.0 << 13;
        self.0 ^= self.0 >> 7;
        self.0 ^= self.0 << 17;
        ((self.0.wrapping_mul(0x2545_f491_4f6c_dd1d) >> 33) % n as u64) as usize
    }
}

pub fn accepted(list: &List) -> bool {
    engine::judge(&list.starts, &list.deadlines, &list.pairs, &mut [0; 64]).is_ok()
}

/// Jobs around a hidden plan that fills its slots but for one, with short windows and orders along it.
pub fn tight(n: usize, seed: usize) -> List {
    let mut random = Random(seed as u64 * 77 + 5);
    let horizon = n / 2 + 1;
    let mut seats: Vec<usize> = (0..2 * horizon).collect();
    for k in (1..seats.len()).rev() {
        seats.swap(k, random.below(k + 1));
    }
    let hidden: Vec<usize> = seats[..n].iter().map(|seat| seat / 2).collect();
    let mut list = List { starts: vec![], deadlines: vec![], pairs: vec![] };
    for &slot in &hidden {
        list.starts.push(slot.saturating_sub(random.below(4)) as u16);
        list.deadlines.push((slot + 1 + random.below(6)).min(horizon) as u16);
    }
    for a in 0..n {
        for b in 0..n {
            if hidden[a] < hidden[b] && random.below(n) < 2 {
                list.pairs.extend([a as u16, b as u16]);
            }
        }
    }
    list
}

/// Whether every job has a slot left between its predecessors and its followers, one slot for each along a chain.
fn open(list: &List) -> bool {
    let n = list.starts.len();
    let (mut early, mut late) = (list.starts.clone(), list.deadlines.clone());
    for _ in 0..n {
        for pair in list.pairs.chunks(2) {
            let (a, b) = (pair[0] as usize, pair[1] as usize);
            early[b] = early[b].max(early[a] + 1);
            late[a] = late[a].min(late[b].saturating_sub(1));
        }
    }
    (0..n).all(|i| early[i] < late[i])
}

/// The same with one deadline drawn in to one below the least that fits, which no chain alone shows.
pub fn barely_none(n: usize, seed: usize) -> List {
    let list = tight(n, seed);
    for job in 0..n {
        let mut drawn = list.clone();
        while accepted(&drawn) {
            drawn.deadlines[job] -= 1;
        }
        if open(&drawn) {
            return drawn;
        }
    }
    barely_none(n, seed + 1000)
}

/// Loose windows over all slots.
pub fn wide(n: usize, seed: usize) -> List {
    let mut random = Random(seed as u64 * 59 + 7);
    let mut list = List { starts: vec![], deadlines: vec![], pairs: vec![] };
    let hidden: Vec<usize> = (0..n).map(|_| random.below(4096)).collect();
    for &slot in &hidden {
        list.starts.push(slot.saturating_sub(random.below(1500)) as u16);
        list.deadlines.push((slot + 1 + random.below(1500)).min(4096) as u16);
    }
    for a in 0..n {
        for b in 0..n {
            if hidden[a] < hidden[b] && random.below(n) < 2 {
                list.pairs.extend([a as u16, b as u16]);
            }
        }
    }
    if accepted(&list) { list } else { wide(n, seed + 1000) }
}

/// A tight list, and one job in the last slot of all.
pub fn far(n: usize, seed: usize) -> List {
    let mut list = tight(n - 1, seed);
    list.starts.push(4095);
    list.deadlines.push(4096);
    list
}

/// 32 levels of two, each job after all of the level before: 64 jobs and 1,984 orders.
pub fn levels() -> List {
    let mut pairs = vec![];
    for a in 0..62 {
        let next = a / 2 * 2 + 2;
        pairs.extend([a, next, a, next + 1]);
    }
    List { starts: vec![0; 64], deadlines: vec![33; 64], pairs }
}

/// One chain: 64 jobs and 2,016 orders.
pub fn chain() -> List {
    List { starts: vec![0; 64], deadlines: vec![64; 64], pairs: (0..63).flat_map(|a| [a, a + 1]).collect() }
}
