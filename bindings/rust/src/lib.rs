//! The buoy planner: jobs of one slot for two equal cores, with starts, deadlines and orders.
//!
//! What is here only hands over: the work is done by functions that are proved to meet their contracts.
//! A book is opened empty and made by requests alone, which is all that those contracts assume of it:
//!
//! ```compile_fail,E0451
//! let book = planner::Book { size: 65, ..planner::Book::open() };
//! ```
//!
//! A job's number, a slot and a core are three types:
//!
//! ```compile_fail,E0308
//! let book = planner::Book::open();
//! book.place(planner::SlotTime(0));
//! ```
//!
//! The crate uses `core` alone: it allocates nothing, and goes where there is no operating system. The library that it
//! links is for x86-64.
#![no_std]
#![deny(missing_docs)]
pub mod raw;

use core::fmt;
use core::mem::offset_of;

/// Bytes that are enough for the plan of any book.
pub const PLAN_BYTES: usize = 8192;
/// Bytes that are enough for the file of any book.
pub const BOOK_BYTES: usize = 12480;
/// The longest job file that is read.
pub const FILE_BYTES: usize = 24576;
/// In a plan: no job on this core.
pub const IDLE: u8 = 255;

/// A job's number, as the book answered it.
#[derive(Clone, Copy, Debug, PartialEq, Eq, PartialOrd, Ord, Hash)]
pub struct JobIndex(pub u16);

/// A slot, counted from 0.
#[derive(Clone, Copy, Debug, PartialEq, Eq, PartialOrd, Ord, Hash)]
pub struct SlotTime(pub usize);

/// A core: 0 or 1.
#[derive(Clone, Copy, Debug, PartialEq, Eq, PartialOrd, Ord, Hash)]
pub struct CoreIndex(pub usize);

/// A number of refusal, and what is returned with it. Nothing was changed.
#[derive(Clone, Copy, Debug, PartialEq, Eq)]
pub struct Refusal {
    /// 1 to 14.
    pub number: u8,
    /// What is returned with it: a place in a list, bytes needed, an offset, or 0.
    pub value: usize,
}

/// The class of a number of refusal.
#[derive(Clone, Copy, Debug, PartialEq, Eq)]
pub enum Class {
    /// Any other number.
    None = 0,
    /// 1, 8, 9.
    Room = 1,
    /// 2, 3, 5, 6, 12, 13.
    Request = 2,
    /// 4.
    Plan = 3,
    /// 7, 10, 11, 14.
    Form = 4,
}

/// A request on a book.
#[derive(Clone, Copy, Debug, PartialEq, Eq)]
pub enum Request {
    /// A new job.
    Job {
        /// The slot before which it may not begin: 0 to 4,095.
        start: u16,
        /// The time by which it must end: 1 to 4,096, above the start.
        deadline: u16,
    },
    /// An order of two jobs.
    Before {
        /// The job that ends first.
        first: JobIndex,
        /// The job that waits for it.
        second: JobIndex,
    },
    /// An earlier deadline.
    Earlier {
        /// The job.
        job: JobIndex,
        /// The time by which it must now end.
        deadline: u16,
    },
}

/// What one record of a job file led to.
#[derive(Clone, Copy, Debug, PartialEq, Eq)]
pub enum Event {
    /// The request was answered, and the offset moved on.
    Request(Result<usize, Refusal>),
    /// The offset is the file's length.
    End,
    /// The file cannot be read further; the offset stays.
    Stopped(Refusal),
}

/// The place of a job in the plan.
#[derive(Clone, Copy, Debug, PartialEq, Eq)]
pub struct Place {
    /// Its slot.
    pub slot: SlotTime,
    /// Its core.
    pub core: CoreIndex,
    /// Its slot + 1.
    pub end: usize,
    /// Its latest time minus its end.
    pub spare: usize,
}

/// A book of jobs. It always has a plan.
#[repr(C)]
#[derive(Clone, Debug, PartialEq, Eq)]
pub struct Book {
    size: u16,
    start: [u16; 64],
    latest: [u16; 64],
    before: raw::Before,
}

// The library takes size, start and latest as one row: they lie one behind the other. A new row is one more line here.
const _: () = {
    assert!(offset_of!(Book, size) == 0);
    assert!(offset_of!(Book, start) == size_of::<[u16; 1]>());
    assert!(offset_of!(Book, latest) == size_of::<[u16; 65]>());
    assert!(offset_of!(Book, before) >= size_of::<raw::Times>());
};

impl Book {
    /// An empty book.
    pub fn open() -> Book {
        let mut book = Book { size: 0, start: [0; 64], latest: [0; 64], before: [0; 64] };
        let (times, before) = book.lend();
        unsafe { raw::firmware_open(times, before) }
        book
    }

    /// The two rows of a book, to be kept elsewhere.
    pub fn rows(&self) -> (&raw::Times, &raw::Before) {
        let (times, before) = self.show();
        unsafe { (&*times, &*before) }
    }

    /// The book of two rows that were kept; none where no requests make such a book.
    pub fn of_rows(times: &raw::Times, before: &raw::Before) -> Option<Book> {
        if unsafe { raw::firmware_is_book(times, before) } == 0 {
            return None;
        }
        let mut book = Book::open();
        let lent = book.lend();
        unsafe { (*lent.0, *lent.1) = (*times, *before) }
        Some(book)
    }

    /// The two parts that the library takes, to be changed.
    fn lend(&mut self) -> (*mut raw::Times, *mut raw::Before) {
        let book = &raw mut *self;
        (book.cast(), unsafe { &raw mut (*book).before })
    }

    /// The same, to be read.
    fn show(&self) -> (*const raw::Times, *const raw::Before) {
        (core::ptr::from_ref(self).cast(), &self.before)
    }

    /// A new job answers its number, the other requests 0. A refused request leaves the book as it was.
    pub fn apply(&mut self, request: Request) -> Result<usize, Refusal> {
        let (times, before) = self.lend();
        let mut value = 0;
        let number = unsafe {
            match request {
                Request::Job { start, deadline } => raw::firmware_add_job(times, before, start, deadline, &mut value),
                Request::Before { first, second } => {
                    raw::firmware_add_order(times, before, first.0, second.0, &mut value)
                }
                Request::Earlier { job, deadline } => raw::firmware_draw_in(times, before, job.0, deadline, &mut value),
            }
        };
        answer(number, value)
    }

    /// A new job answers its number. Refusals in this order: 1, 2, 3, 4.
    pub fn add_job(&mut self, start: u16, deadline: u16) -> Result<JobIndex, Refusal> {
        self.apply(Request::Job { start, deadline }).map(|number| JobIndex(number as u16))
    }

    /// An order that already follows changes nothing. 5, 12, 13, 6, 4.
    pub fn add_order(&mut self, first: JobIndex, second: JobIndex) -> Result<(), Refusal> {
        self.apply(Request::Before { first, second }).map(|_| ())
    }

    /// A deadline not below the latest time held changes nothing. 5, 2, 3, 4.
    pub fn draw_in(&mut self, job: JobIndex, deadline: u16) -> Result<(), Refusal> {
        self.apply(Request::Earlier { job, deadline }).map(|_| ())
    }

    /// Two bytes a slot, core 0 first, [`IDLE`] for an idle core; answers the finishing time. Bytes beyond the plan stay. 8.
    pub fn plan(&self, out: &mut [u8]) -> Result<usize, Refusal> {
        let (times, before) = self.show();
        let mut value = 0;
        let number = unsafe { raw::firmware_plan(times, before, out.as_mut_ptr(), out.len(), &mut value) };
        answer(number, value)
    }

    /// The place of a job. 5.
    pub fn place(&self, job: JobIndex) -> Result<Place, Refusal> {
        let (times, before) = self.show();
        let (mut slot, mut core, mut end, mut spare) = (0, 0, 0, 0);
        let number = unsafe { raw::firmware_place(times, before, job.0, &mut slot, &mut core, &mut end, &mut spare) };
        answer(number, 0).map(|_| Place { slot: SlotTime(slot), core: CoreIndex(core), end, spare })
    }

    /// One record of a job file at an offset, which moves by six unless it is the end or a stop (9, 11, 10).
    pub fn read(&mut self, file: &[u8], at: &mut usize) -> Event {
        let (times, before) = self.lend();
        let mut value = 0;
        let number = unsafe { raw::firmware_read(times, before, file.as_ptr(), file.len(), at, &mut value) };
        match number {
            255 => Event::End,
            9..=11 => Event::Stopped(Refusal { number, value }),
            _ => Event::Request(answer(number, value)),
        }
    }

    /// The book as a job file; answers the number of bytes written. Bytes beyond them stay. 8.
    pub fn write(&self, out: &mut [u8]) -> Result<usize, Refusal> {
        let (times, before) = self.show();
        let mut value = 0;
        let number = unsafe { raw::firmware_write(times, before, out.as_mut_ptr(), out.len(), &mut value) };
        answer(number, value)
    }

    /// How many jobs are held.
    pub fn size(&self) -> usize {
        self.size as usize
    }

    /// The start of a job held.
    pub fn start(&self, job: JobIndex) -> Option<u16> {
        self.start[..self.size()].get(job.0 as usize).copied()
    }

    /// The latest time of a job held.
    pub fn latest(&self, job: JobIndex) -> Option<u16> {
        self.latest[..self.size()].get(job.0 as usize).copied()
    }

    /// Whether a chain of orders leads from one job to the other.
    pub fn precedes(&self, first: JobIndex, second: JobIndex) -> bool {
        let row = self.before[..self.size()].get(second.0 as usize).copied().unwrap_or(0);
        row.checked_shr(first.0 as u32).unwrap_or(0) % 2 == 1
    }
}

/// The whole list at once: pairs "first, second" laid flat; `latest` receives the latest times, and its entries beyond
/// the number of jobs stay. 7, 1; then 2, 3 job by job; then 5, 12 pair by pair; then 13 or 6; then 4.
pub fn judge(starts: &[u16], deadlines: &[u16], pairs: &[u16], latest: &mut [u16]) -> Result<(), Refusal> {
    let mut value = 0;
    let number = unsafe {
        raw::firmware_judge(
            starts.as_ptr(),
            starts.len(),
            deadlines.as_ptr(),
            deadlines.len(),
            pairs.as_ptr(),
            pairs.len(),
            latest.as_mut_ptr(),
            latest.len(),
            &mut value,
        )
    };
    answer(number, value).map(|_| ())
}

/// The least maximum lateness of a whole list: a job's lateness is its end minus its deadline, a plan's is the greatest
/// of its jobs', and this is the least of all valid plans', deadlines met or not. It is also the least number of slots
/// by which all deadlines can be moved, past 4,096 too, so that a valid plan meets them: above 0 where the list does
/// not fit. From -4,095 to 4,158. 7, 1, 14; then 2, 3 job by job; then 5, 12 pair by pair; then 13 or 6; never 4.
///
/// ```
/// // eight jobs in two slots: all would fit if each deadline were two slots later
/// assert_eq!(planner::lateness(&[0; 8], &[2; 8], &[]), Ok(2));
/// ```
pub fn lateness(starts: &[u16], deadlines: &[u16], pairs: &[u16]) -> Result<i16, Refusal> {
    let (mut lateness, mut value) = (0, 0);
    let number = unsafe {
        raw::firmware_lateness(
            starts.as_ptr(),
            starts.len(),
            deadlines.as_ptr(),
            deadlines.len(),
            pairs.as_ptr(),
            pairs.len(),
            &mut lateness,
            &mut value,
        )
    };
    answer(number, value).map(|_| lateness)
}

/// The shortest finishing time among the valid plans of a whole list that meet the deadlines; 0 for an empty list. The
/// plan that [`Book::plan`] makes may finish later. 7, 1; then 2, 3 job by job; then 5, 12 pair by pair; then 13 or 6;
/// then 4.
pub fn shortest(starts: &[u16], deadlines: &[u16], pairs: &[u16]) -> Result<usize, Refusal> {
    let mut value = 0;
    let number = unsafe {
        raw::firmware_shortest(
            starts.as_ptr(),
            starts.len(),
            deadlines.as_ptr(),
            deadlines.len(),
            pairs.as_ptr(),
            pairs.len(),
            &mut value,
        )
    };
    answer(number, value)
}

fn answer(number: u8, value: usize) -> Result<usize, Refusal> {
    match number {
        0 => Ok(value),
        _ => Err(Refusal { number, value }),
    }
}

impl Refusal {
    /// The class of the number.
    pub fn class(&self) -> Class {
        match unsafe { raw::firmware_class(self.number) } {
            1 => Class::Room,
            2 => Class::Request,
            3 => Class::Plan,
            4 => Class::Form,
            _ => Class::None,
        }
    }
}

impl fmt::Display for Refusal {
    fn fmt(&self, f: &mut fmt::Formatter) -> fmt::Result {
        let text = match self.number {
            1 => "there is no room for more than 64 jobs",
            2 => "start above 4,095 or deadline above 4,096",
            3 => "deadline at most the job's start",
            4 => "no valid plan meets the deadlines",
            5 => "a job number that is not held; of an order, the first",
            6 => "an order that closes a loop through other jobs",
            7 => "rows of unequal length, or half a pair",
            8 => "too few bytes lent",
            9 => "a file over 24,576 bytes",
            10 => "unknown mark",
            11 => "no whole record at the offset",
            12 => "an order whose second job is not held",
            13 => "an order of a job before itself",
            14 => "the lateness of an empty list",
            _ => "unknown",
        };
        write!(f, "refused {}: {text} ({})", self.number, self.value)
    }
}

impl core::error::Error for Refusal {}
