//! The functions of the static library as they are: a book is lent as its two parts, a row as pointer and length.
//! Each book must be one that `firmware_open` and these functions made, or that `firmware_is_book` told to be one; no two
//! of the lent places may overlap.

/// The number of jobs, then by job 64 starts and 64 latest times.
pub type Times = [u16; 129];
/// By job: bit a is 1 where job a precedes it.
pub type Before = [u64; 64];

#[rustfmt::skip]
unsafe extern "C" {
    /// An empty book, whatever the memory held.
    pub fn firmware_open(times: *mut Times, before: *mut Before);
    /// 1 for a book that requests can make, 0 for anything else.
    pub fn firmware_is_book(times: *const Times, before: *const Before) -> u8;
    /// Answers 0 or the number of the refusal; `value` gets what goes with it, as in the calls that follow.
    pub fn firmware_add_job(times: *mut Times, before: *mut Before, start: u16, deadline: u16, value: *mut usize) -> u8;
    /// Job `first` before job `second`.
    pub fn firmware_add_order(times: *mut Times, before: *mut Before, first: u16, second: u16, value: *mut usize) -> u8;
    /// An earlier deadline.
    pub fn firmware_draw_in(times: *mut Times, before: *mut Before, job: u16, deadline: u16, value: *mut usize) -> u8;
    /// A whole list.
    pub fn firmware_judge(starts: *const u16, starts_length: usize, deadlines: *const u16, deadlines_length: usize, pairs: *const u16, pairs_length: usize, latest: *mut u16, latest_length: usize, value: *mut usize) -> u8;
    /// The least maximum lateness of a whole list, in `lateness`; a refusal leaves it.
    pub fn firmware_lateness(starts: *const u16, starts_length: usize, deadlines: *const u16, deadlines_length: usize, pairs: *const u16, pairs_length: usize, lateness: *mut i16, value: *mut usize) -> u8;
    /// The shortest finishing time of a whole list.
    pub fn firmware_shortest(starts: *const u16, starts_length: usize, deadlines: *const u16, deadlines_length: usize, pairs: *const u16, pairs_length: usize, value: *mut usize) -> u8;
    /// The plan.
    pub fn firmware_plan(times: *const Times, before: *const Before, out: *mut u8, length: usize, value: *mut usize) -> u8;
    /// The place of a job; there is no value.
    pub fn firmware_place(times: *const Times, before: *const Before, job: u16, slot: *mut usize, core: *mut usize, end: *mut usize, spare: *mut usize) -> u8;
    /// One record; 255 at the end of the file.
    pub fn firmware_read(times: *mut Times, before: *mut Before, file: *const u8, length: usize, at: *mut usize, value: *mut usize) -> u8;
    /// The book as a job file.
    pub fn firmware_write(times: *const Times, before: *const Before, out: *mut u8, length: usize, value: *mut usize) -> u8;
    /// The class of a number of refusal: 0 none, 1 room, 2 request, 3 plan, 4 form.
    pub fn firmware_class(number: u8) -> u8;
}
