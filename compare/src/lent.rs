//! Memory lent to the planner, with guard cells around each part, and the calls on it.
use crate::reference::{self, Answer, Event, Request};
use planner::raw;

/// A lent row between guard cells. With none, the row ends where its memory ends, which is what valgrind watches.
pub struct Lent<T> {
    cells: Vec<T>,
    guard: usize,
    mark: T,
}

impl<T: Copy + PartialEq> Lent<T> {
    pub fn new(row: &[T], mark: T, guard: usize) -> Lent<T> {
        let around = vec![mark; guard];
        Lent { cells: [&around, row, &around].concat(), guard, mark }
    }

    pub fn row(&self) -> &[T] {
        &self.cells[self.guard..self.cells.len() - self.guard]
    }

    fn lend(&mut self) -> *mut T {
        self.cells[self.guard..].as_mut_ptr()
    }

    pub fn kept(&self) -> bool {
        let around = self.cells[..self.guard].iter().chain(&self.cells[self.cells.len() - self.guard..]);
        around.into_iter().all(|&cell| cell == self.mark)
    }
}

/// A book in lent memory, and the place for a value.
pub struct LentBook {
    times: Lent<u16>,
    before: Lent<u64>,
    value: Lent<usize>,
    pub guard: usize,
}

const UNSET: usize = 0x5e7_5e7;

impl LentBook {
    /// Opened in memory that holds anything.
    pub fn open(guard: usize) -> LentBook {
        let mut book = LentBook {
            times: Lent::new(&[0xabcd; 129], 0x1111, guard),
            before: Lent::new(&[!0; 64], 0x3333, guard),
            value: Lent::new(&[UNSET], UNSET, guard),
            guard,
        };
        let (times, before) = book.parts();
        unsafe { raw::firmware_open(times, before) }
        book
    }

    fn parts(&mut self) -> (*mut raw::Times, *mut raw::Before) {
        (self.times.lend().cast(), self.before.lend().cast())
    }

    /// Rows that may be a book or not, at most one cell away from this one, and whether they are told to be one.
    pub fn damaged(&self, change: impl FnOnce(&mut [u16], &mut [u64])) -> (Vec<u16>, Vec<u64>, u8) {
        let (mut times, mut before) = (self.times.row().to_vec(), self.before.row().to_vec());
        change(&mut times, &mut before);
        let told = unsafe { raw::firmware_is_book(times.as_ptr().cast(), before.as_ptr().cast()) };
        (times, before, told)
    }

    /// The number and the value that a call left, as an answer.
    fn answer(&mut self, number: u8) -> Answer {
        let value = self.value.row()[0];
        self.value.cells[self.guard] = UNSET;
        if number == 0 { Ok(value) } else { Err((number, value)) }
    }

    pub fn apply(&mut self, request: Request) -> Answer {
        let (times, before) = self.parts();
        let value = self.value.lend();
        let number = unsafe {
            match request {
                Request::Job(s, d) => raw::firmware_add_job(times, before, s, d, value),
                Request::Before(a, b) => raw::firmware_add_order(times, before, a, b, value),
                Request::Earlier(j, d) => raw::firmware_draw_in(times, before, j, d, value),
            }
        };
        self.answer(number)
    }

    pub fn plan(&mut self, out: &mut Lent<u8>) -> Answer {
        let (times, before) = self.parts();
        let (length, value) = (out.row().len(), self.value.lend());
        let number = unsafe { raw::firmware_plan(times, before, out.lend(), length, value) };
        self.answer(number)
    }

    pub fn place(&mut self, job: u16) -> Result<[usize; 4], (u8, usize)> {
        let (times, before) = self.parts();
        let mut place = Lent::new(&[UNSET; 4], UNSET, self.guard);
        let at = place.lend();
        let number = unsafe { raw::firmware_place(times, before, job, at, at.add(1), at.add(2), at.add(3)) };
        let told: [usize; 4] = place.row().try_into().unwrap();
        match number {
            0 if place.kept() => Ok(told),
            _ if told == [UNSET; 4] && place.kept() => Err((number, 0)),
            _ => Err((number, UNSET)),
        }
    }

    pub fn read(&mut self, file: &[u8], at: &mut usize) -> Event {
        let (times, before) = self.parts();
        let file = Lent::new(file, 0x4a, self.guard);
        let mut offset = Lent::new(&[*at], UNSET, self.guard);
        let bytes = file.cells[self.guard..].as_ptr();
        let (length, value) = (file.row().len(), self.value.lend());
        let number = unsafe { raw::firmware_read(times, before, bytes, length, offset.lend(), value) };
        *at = if offset.kept() { offset.row()[0] } else { UNSET };
        match (number, self.answer(number)) {
            (255, Err((_, 0))) => Event::End,
            (9..=11, Err((number, value))) => Event::Stopped(number, value),
            (_, answer) => Event::Request(answer),
        }
    }

    pub fn write(&mut self, out: &mut Lent<u8>) -> Answer {
        let (times, before) = self.parts();
        let (length, value) = (out.row().len(), self.value.lend());
        let number = unsafe { raw::firmware_write(times, before, out.lend(), length, value) };
        self.answer(number)
    }

    /// Whether the book is the one wanted, with nothing beyond its jobs and its surroundings untouched.
    pub fn is(&self, want: &reference::Book) -> bool {
        let n = want.size();
        let beyond = vec![0; 64 - n];
        let times = [&[n as u16][..], &want.list.starts, &beyond, &want.latest, &beyond].concat();
        let set = |b: usize| (0..n).filter(|&a| want.precedes[a][b]).fold(0u64, |set, a| set | 1 << a);
        let sets: Vec<u64> = (0..64).map(|b| if b < n { set(b) } else { 0 }).collect();
        let rows = self.times.row() == times && self.before.row() == sets;
        rows && self.times.kept() && self.before.kept() && self.value.kept()
    }

    pub fn text(&self) -> String {
        let (size, rows) = self.times.row().split_at(1);
        let (start, latest) = rows.split_at(64);
        let n = (size[0] as usize).min(64);
        let before = &self.before.row()[..n];
        format!("size {} start {:?} latest {:?} before {before:x?}", size[0], &start[..n], &latest[..n])
    }
}

/// The rows of a whole list, lent to be read, and the place for a value.
struct Rows {
    given: [Vec<u16>; 3],
    lent: [Lent<u16>; 3],
    value: Lent<usize>,
}

impl Rows {
    fn new(rows: [&[u16]; 3], guard: usize) -> Rows {
        let lent = rows.map(|row| Lent::new(row, 0x0101, guard));
        Rows { given: rows.map(|row| row.to_vec()), lent, value: Lent::new(&[UNSET], UNSET, guard) }
    }

    fn lend(&mut self) -> [(*const u16, usize); 3] {
        self.lent.each_mut().map(|row| (row.lend().cast_const(), row.row().len()))
    }

    /// The answer; no value where more was written than the value.
    fn answer(&self, number: u8) -> Answer {
        let stayed = self.lent.iter().zip(&self.given).all(|(lent, given)| lent.kept() && lent.row() == given);
        let value = if stayed && self.value.kept() { self.value.row()[0] } else { UNSET };
        if number == 0 { Ok(value) } else { Err((number, value)) }
    }
}

pub fn judge(starts: &[u16], deadlines: &[u16], pairs: &[u16], latest: &mut Lent<u16>) -> Answer {
    let mut rows = Rows::new([starts, deadlines, pairs], latest.guard);
    let [(starts, s), (deadlines, d), (pairs, p)] = rows.lend();
    let (row, l, value) = (latest.lend(), latest.row().len(), rows.value.lend());
    let number = unsafe { raw::firmware_judge(starts, s, deadlines, d, pairs, p, row, l, value) };
    rows.answer(number)
}

/// No lateness.
const NEVER: i16 = 0x5e7e;

pub fn lateness(starts: &[u16], deadlines: &[u16], pairs: &[u16], guard: usize) -> Result<i32, (u8, usize)> {
    let mut rows = Rows::new([starts, deadlines, pairs], guard);
    let mut late = Lent::new(&[NEVER], NEVER, guard);
    let [(starts, s), (deadlines, d), (pairs, p)] = rows.lend();
    let (told, value) = (late.lend(), rows.value.lend());
    let number = unsafe { raw::firmware_lateness(starts, s, deadlines, d, pairs, p, told, value) };
    match (rows.answer(number), late.row()[0]) {
        (Ok(0), told) if told != NEVER && late.kept() => Ok(told as i32),
        (Err(refusal), NEVER) if late.kept() => Err(refusal),
        _ => Err((number, UNSET)),
    }
}

pub fn shortest(starts: &[u16], deadlines: &[u16], pairs: &[u16], guard: usize) -> Answer {
    let mut rows = Rows::new([starts, deadlines, pairs], guard);
    let [(starts, s), (deadlines, d), (pairs, p)] = rows.lend();
    let number = unsafe { raw::firmware_shortest(starts, s, deadlines, d, pairs, p, rows.value.lend()) };
    rows.answer(number)
}

pub fn class(number: u8) -> u8 {
    unsafe { raw::firmware_class(number) }
}
