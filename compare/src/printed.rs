//! What is printed: the tally, and a disagreement as keyed text.
use crate::reference::{List, Request};
use std::process::exit;

/// What was compared.
#[derive(Debug, Default)]
pub struct Tally {
    pub with_plan: u64,
    pub without: u64,
    pub unsound: u64,
    pub every_layout: u64,
    pub requests: u64,
    pub accepted: u64,
    pub records: u64,
    /// rows that are no book, and rows that are one
    pub books: [u64; 2],
    pub refusals: [u64; 14],
    /// how late and how short: lists with one fault after the other
    pub swept: u64,
    /// how late: below 0, 0, above 0
    pub late: [u64; 3],
    /// how short: as the plan made, shorter
    pub short: [u64; 2],
    /// how late and how short, by every layout too
    pub late_layouts: u64,
    pub late_refusals: [u64; 15],
}

impl Tally {
    pub fn answer<T>(&mut self, answer: &Result<T, (u8, usize)>) {
        if let Err((number, _)) = answer {
            self.refusals[*number as usize] += 1;
        }
    }
}

pub fn keyed(requests: impl IntoIterator<Item = Request>) -> String {
    let line = |request| match request {
        Request::Job(s, d) => format!("JB {s} {d}\n"),
        Request::Before(a, b) => format!("OR {a} {b}\n"),
        Request::Earlier(j, d) => format!("TG {j} {d}\n"),
    };
    requests.into_iter().map(line).collect()
}

pub fn requests_of(list: &List) -> Vec<Request> {
    let jobs = list.starts.iter().zip(&list.deadlines).map(|(&s, &d)| Request::Job(s, d));
    let orders = list.orders.iter().map(|&(a, b)| Request::Before(a as u16, b as u16));
    jobs.chain(orders).collect()
}

/// The rows of a whole list, sound or not.
pub fn rows_of(list: &List, pairs: &[u16]) -> String {
    let jobs = keyed(requests_of(&List { orders: vec![], ..list.clone() }));
    format!("{jobs}{} starts, {} deadlines, pairs {pairs:?}", list.starts.len(), list.deadlines.len())
}

/// Prints the disagreement and ends.
pub fn hold(
    agree: bool,
    what: &str,
    wanted: &dyn std::fmt::Debug,
    got: &dyn std::fmt::Debug,
    keyed: &dyn Fn() -> String,
) {
    if !agree {
        println!("DISAGREEMENT: {what}\nwanted {wanted:?}\ngot    {got:?}\n{}", keyed());
        exit(1);
    }
}
