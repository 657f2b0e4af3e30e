//! Whole lists, and everything that a book can be asked.
use crate::lent::{self, Lent, LentBook};
use crate::printed::{Tally, hold, keyed, requests_of, rows_of};
use crate::random::Random;
use crate::reference::{self, Answer, Book, List};

/// A random list, judged at once; where it has a plan, its book by requests, its plan, its places and its file.
pub fn whole_list(random: &mut Random, guard: usize, tally: &mut Tally) {
    let mut list = random.list();
    let mut pairs = list.pairs();
    if random.one_in(10) {
        spoil(random, &mut list, &mut pairs);
    }
    let length = list.size() + if random.one_in(3) { random.below(4) } else { 0 };
    let short = random.one_in(200) && length > 0;
    let filled: Vec<u16> = (0..length - short as usize).map(|i| 50_000 + i as u16).collect();
    let answer = judge(&list, &pairs, &filled, guard);
    tally.answer(&answer);
    match answer {
        Ok(_) => tally.with_plan += 1,
        Err((4, _)) => tally.without += 1,
        Err(_) => {
            tally.unsound += 1;
            return;
        }
    }
    list.orders = pairs.chunks(2).map(|p| (p[0] as usize, p[1] as usize)).collect();
    let made = answer.is_ok().then(|| book_of(random, &list, guard, tally));
    if list.size() <= 7 && list.deadlines.iter().all(|&d| d <= 12) {
        every_layout(&list, made);
        tally.every_layout += 1;
    }
}

/// Judged by both; the receiving row is compared whole.
pub fn judge(list: &List, pairs: &[u16], filled: &[u16], guard: usize) -> Answer {
    let mut want = filled.to_vec();
    let wanted = reference::judge(&list.starts, &list.deadlines, pairs, &mut want);
    let mut row = Lent::new(filled, 0xeeee, guard);
    let got = lent::judge(&list.starts, &list.deadlines, pairs, &mut row);
    let text = || rows_of(list, pairs);
    hold(wanted == got && row.kept(), "judge", &wanted, &got, &text);
    hold(row.row() == want, "latest times", &want, &row.row(), &text);
    wanted
}

/// One or two faults: wild numbers, loops, jobs not held, rows of unequal length, too many jobs.
pub fn spoil(random: &mut Random, list: &mut List, pairs: &mut Vec<u16>) {
    for _ in 0..1 + random.below(2) {
        let n = list.size();
        match random.below(8) {
            0 if n > 0 => list.starts[random.below(n)] = [4095, 4096, 65535][random.below(3)],
            1 if n > 0 => list.deadlines[random.below(n)] = [0, 4096, 4097, 65535][random.below(4)],
            2 if n > 0 => list.deadlines[random.below(n)] = list.starts[random.below(n)],
            3 if n > 0 => pairs.extend([random.below(n) as u16, random.below(n) as u16]),
            4 => pairs.extend([random.below(n + 1) as u16, random.below(n + 2) as u16]),
            5 if random.one_in(4) => pairs.push(0),
            6 if random.one_in(4) => list.deadlines.push(1),
            7 if random.one_in(4) => {
                let more = 65 + random.below(3);
                list.starts.resize(more.max(n), 0);
                list.deadlines.resize(more.max(n), 60);
            }
            _ => pairs.extend_from_within(..(2 * random.below(3)).min(pairs.len())),
        }
    }
}

/// The verdict, the latest times and the plan made, against every layout there is; the two ways to look at a job against
/// each other.
fn every_layout(list: &List, made: Option<(Book, LentBook)>) {
    let text = || keyed(requests_of(list));
    let accepted = made.is_some();
    let (latest, plan) = made.map_or((vec![], vec![]), |(book, mut held)| (book.latest, slots_made(&mut held, list)));
    let (mut any, mut met) = (false, false);
    reference::any_layout(list, &|due| due, &mut |slots| {
        let in_time = slots.iter().zip(&latest).all(|(&slot, &time)| slot < time);
        hold(!accepted || in_time, "every layout keeps the latest times", &latest, &slots, &text);
        any = true;
        met |= slots == plan;
        false
    });
    hold(any == accepted, "some layout meets the deadlines", &any, &accepted, &text);
    hold(met || !accepted, "the plan made is one of the layouts", &"one of them", &plan, &text);
    let precedes = list.precedes();
    let literal = list.settled(&precedes, reference::literal);
    let counted = list.settled(&precedes, reference::counted);
    hold(literal == counted, "the rule by two ways", &literal, &counted, &text);
}

/// The slot of each job in the plan that the planner writes, which has each job once and ends with the last.
fn slots_made(held: &mut LentBook, list: &List) -> Vec<u16> {
    let mut out = Lent::new(&[0; 8192], 0x99, held.guard);
    let finish = held.plan(&mut out).unwrap();
    let plan = &out.row()[..2 * finish];
    let slots: Vec<u16> = (0..list.size() as u8).map(|job| slot_in(plan, job)).collect();
    let end = slots.iter().max().map_or(0, |&last| last as usize + 1);
    let once = plan.iter().filter(|&&job| job != 255).count() == list.size();
    hold(once && end == finish, "each job once, to the last", &end, &plan, &|| keyed(requests_of(list)));
    slots
}

fn slot_in(plan: &[u8], job: u8) -> u16 {
    plan.iter().position(|&byte| byte == job).map_or(u16::MAX, |at| at as u16 / 2)
}

/// The list as requests, jobs first, which are all accepted; then everything that the book can be asked. The two books.
pub fn book_of(random: &mut Random, list: &List, guard: usize, tally: &mut Tally) -> (Book, LentBook) {
    let requests = requests_of(list);
    let text = || keyed(requests.iter().copied());
    let mut held = LentBook::open(guard);
    for (k, &request) in requests.iter().enumerate() {
        let (wanted, got) = (Ok(if k < list.size() { k } else { 0 }), held.apply(request));
        hold(wanted == got, &format!("request {k} of a list that has a plan"), &wanted, &got, &text);
    }
    tally.requests += requests.len() as u64;
    let precedes = list.precedes();
    let latest = list.latest(&precedes).unwrap();
    let book = Book { list: list.clone(), precedes, latest };
    hold(held.is(&book), "the book of the list", &book.latest, &held.text(), &text);
    let slots = book.slots();
    hold(reference::meets(list, &book.latest, &slots), "the plan meets the latest times", &slots, &(), &text);
    asked(random, &book, &mut held, tally, &text);
    (book, held)
}

/// Plan, places and file of one book, in rows of every length around the one needed; the book stays as it is.
pub fn asked(random: &mut Random, book: &Book, held: &mut LentBook, tally: &mut Tally, text: &dyn Fn() -> String) {
    let needed = 2 * book.slots().len();
    for length in [needed, needed + 1 + random.below(9), needed.saturating_sub(1), random.below(needed + 1)] {
        let filled: Vec<u8> = (0..length).map(|i| i as u8).collect();
        let (mut want, mut out) = (filled.clone(), Lent::new(&filled, 0x99, held.guard));
        let (wanted, got) = (book.plan(&mut want), held.plan(&mut out));
        hold(wanted == got, "plan", &wanted, &got, text);
        tally.answer(&wanted);
        hold(want == out.row() && out.kept(), "bytes of the plan", &want, &out.row(), text);
    }
    for job in [random.below(book.size() + 1), book.size(), [64, 255, 65_535][random.below(3)]] {
        let (wanted, got) = (book.place(job), held.place(job as u16));
        hold(wanted == got, &format!("place of {job}"), &wanted, &got, text);
    }
    let needed = book.file().len();
    for length in [needed, needed + random.below(9), needed.saturating_sub(1), random.below(needed + 1)] {
        let filled: Vec<u8> = (0..length).map(|i| i as u8).collect();
        let (mut want, mut out) = (filled.clone(), Lent::new(&filled, 0x99, held.guard));
        let (wanted, got) = (book.write(&mut want), held.write(&mut out));
        hold(wanted == got, "write", &wanted, &got, text);
        tally.answer(&wanted);
        hold(want == out.row() && out.kept(), "bytes of the file", &want, &out.row(), text);
    }
    hold(held.is(book), "the book after it was asked", &book.latest, &held.text(), text);
    for k in 0..4 {
        let (times, before, told) = held.damaged(|times, before| {
            if k > 0 {
                random.damage(times, before)
            }
        });
        let wanted = reference::is_book(&times, &before);
        hold(wanted as u8 == told, "is it a book", &wanted, &(told, &times, &before), text);
        hold(k > 0 || wanted, "a book that requests made is one", &true, &wanted, text);
        tally.books[wanted as usize] += 1;
    }
}
