//! Runs of requests, and job files read record by record.
use crate::lent::LentBook;
use crate::lists::asked;
use crate::printed::{Tally, hold, keyed};
use crate::random::Random;
use crate::reference::{self, Book, Event, Request};

/// Random requests, accepted and refused; both books are compared after each.
pub fn run(random: &mut Random, guard: usize, tally: &mut Tally) {
    let (mut book, mut held) = (Book::default(), LentBook::open(guard));
    let full = random.one_in(120);
    let horizon = if full { 24 + random.below(16) } else { 2 + random.below(8) };
    let mut told = vec![];
    for _ in 0..if full { 110 } else { 4 + random.below(30) } {
        let request = random.request(horizon, &book.latest);
        told.push(request);
        let (wanted, got) = (book.apply(request), held.apply(request));
        let text = || keyed(told.iter().copied());
        hold(wanted == got, "the last request", &wanted, &got, &text);
        hold(held.is(&book), "the book after the last request", &book.latest, &held.text(), &text);
        tally.answer(&wanted);
        tally.requests += 1;
        tally.accepted += wanted.is_ok() as u64;
    }
    asked(random, &book, &mut held, tally, &|| keyed(told.iter().copied()));
}

/// A job file, often damaged, read record by record from offset 0, and from an offset that is anything.
pub fn file(random: &mut Random, guard: usize, tally: &mut Tally) {
    let mut written = vec![];
    let mut latest = vec![];
    for _ in 0..random.below(14) {
        let request = random.request(8, &latest);
        if let Request::Job(_, d) = request {
            latest.push(d.clamp(1, 9));
        }
        written.extend(reference::record(request));
    }
    let mut bytes = random.damaged(&written);
    if random.one_in(300) {
        bytes.resize(reference::FILE - 1 + random.below(4), b'J');
    }
    let (mut book, mut held) = (Book::default(), LentBook::open(guard));
    let mut at = if random.one_in(5) { random.below(bytes.len() + 9) } else { 0 };
    if random.one_in(40) {
        at = usize::MAX - random.below(9);
    }
    let mut next = at;
    loop {
        let (wanted, got) = (book.read(&bytes, &mut at), held.read(&bytes, &mut next));
        let text = || format!("file {bytes:?}");
        hold(wanted == got, "read", &wanted, &got, &text);
        hold(at == next, "offset", &at, &next, &text);
        hold(held.is(&book), "the book after a record", &book.latest, &held.text(), &text);
        tally.records += 1;
        match wanted {
            Event::Request(answer) => tally.answer(&answer),
            Event::Stopped(number, value) => return tally.answer::<()>(&Err((number, value))),
            Event::End => return,
        }
    }
}
