//! How late whole lists are, and how short their plans can be: by the rule, and by every layout there is.
use crate::lent;
use crate::lists::spoil;
use crate::printed::{Tally, hold, rows_of};
use crate::random::Random;
use crate::reference::{self, Answer, Book, List};

/// A lateness, or the number of the refusal and what is returned with it.
type Lateness = Result<i32, (u8, usize)>;

/// A random list, some of them drawn apart, some with faults.
pub fn random_list(random: &mut Random, guard: usize, tally: &mut Tally) {
    let mut list = random.list();
    if random.one_in(2) {
        random.apart(&mut list);
    }
    let mut pairs = list.pairs();
    if random.one_in(8) {
        spoil(random, &mut list, &mut pairs);
    }
    asked(&list, &pairs, guard, tally);
}

/// Both calls on one list; it is late exactly if no plan meets the deadlines.
fn asked(list: &List, pairs: &[u16], guard: usize, tally: &mut Tally) {
    let (late, short) = (lateness(list, pairs, guard, tally), shortest(list, pairs, guard, tally));
    if let Ok(late) = late {
        let none = short == Err((4, 0));
        hold((late > 0) == none, "late, or a plan", &late, &short, &|| rows_of(list, pairs));
        tally.late[(late.signum() + 1) as usize] += 1;
    }
    for (number, _) in [late.err(), short.err()].into_iter().flatten() {
        tally.late_refusals[number as usize] += 1;
    }
}

/// Few enough that every layout can be tried.
fn small(list: &List) -> bool {
    list.size() <= 7 && list.deadlines.iter().all(|&d| d <= 16)
}

/// The deadlines moved by the lateness have a plan, and moved by one less none; no layout is less late.
fn lateness(list: &List, pairs: &[u16], guard: usize, tally: &mut Tally) -> Lateness {
    let text = || rows_of(list, pairs);
    let got = lent::lateness(&list.starts, &list.deadlines, pairs, guard);
    let wanted = reference::asked(&list.starts, &list.deadlines, pairs, true);
    let (Ok((list, precedes)), Ok(late)) = (&wanted, got) else {
        hold(wanted.as_ref().err() == got.as_ref().err(), "lateness", &wanted, &got, &text);
        return got;
    };
    let fits = |by: i32| list.fits(precedes, |due| due + by);
    hold(fits(late), "a plan with the deadlines moved by this", &"a plan", &late, &text);
    hold(!fits(late - 1), "none with the deadlines moved by less", &"no plan", &late, &text);
    if small(list) {
        let least = reference::least_lateness(list);
        hold(least == late, "the least lateness of every layout", &least, &late, &text);
        tally.late_layouts += 1;
    }
    got
}

/// With the deadlines capped at the shortest time there is a plan, and at one less none; no layout finishes earlier.
fn shortest(list: &List, pairs: &[u16], guard: usize, tally: &mut Tally) -> Answer {
    let text = || rows_of(list, pairs);
    let got = lent::shortest(&list.starts, &list.deadlines, pairs, guard);
    let wanted = reference::asked(&list.starts, &list.deadlines, pairs, false);
    let book = wanted.and_then(|(list, precedes)| {
        let latest = list.latest(&precedes);
        if small(&list) {
            let least = reference::least_finish(&list);
            hold(least == got.ok(), "the least finishing time of every layout", &least, &got, &text);
        }
        Ok(Book { latest: latest.ok_or((4, 0))?, list, precedes })
    });
    let (Ok(book), Ok(short)) = (&book, got) else {
        hold(book.as_ref().err() == got.as_ref().err(), "shortest time", &book, &got, &text);
        return got;
    };
    let fits = |by: i32| book.list.fits(&book.precedes, |due| due.min(by));
    hold(fits(short as i32), "a plan that finishes by this", &"a plan", &short, &text);
    hold(short == 0 || !fits(short as i32 - 1), "no plan that finishes before this", &"no plan", &short, &text);
    let finish = book.slots().len();
    hold(short <= finish, "the plan made is not shorter", &finish, &short, &text);
    tally.short[(short < finish) as usize] += 1;
    got
}

/// Lists whose answers are known: examples, both ends of the range, no jobs, too many, a pair far along.
pub fn known(guard: usize) {
    let from_0 =
        |deadlines: &[u16]| List { starts: vec![0; deadlines.len()], deadlines: deadlines.to_vec(), orders: vec![] };
    let jobs = |starts: &[u16], deadlines: &[u16]| List { starts: starts.to_vec(), ..from_0(deadlines) };
    let chain: Vec<u16> = (0..63).flat_map(|a| [a, a + 1]).collect();
    let (mut starts, mut deadlines) = ([4095; 64], [4096; 64]);
    (starts[63], deadlines[63]) = (0, 1);
    let many: Vec<u16> = [[0, 1].repeat(70_000), vec![1, 0]].concat();
    let rows: [(List, &[u16], Lateness, Answer); 12] = [
        (from_0(&[2; 8]), &[], Ok(2), Err((4, 0))),
        (jobs(&[0, 0, 1, 2, 2], &[4, 4, 3, 3, 3]), &[0, 2, 1, 2], Ok(0), Ok(3)),
        (from_0(&[1, 2, 2, 3]), &[2, 3], Ok(0), Ok(2)),
        (from_0(&[4096]), &[], Ok(-4095), Ok(1)),
        (jobs(&starts, &deadlines), &chain, Ok(4158), Err((4, 0))),
        (jobs(&[4095; 2], &[4096; 2]), &[], Ok(0), Ok(4096)),
        (jobs(&[4095; 3], &[4096; 3]), &[], Ok(1), Err((4, 0))),
        (from_0(&[]), &[], Err((14, 0)), Ok(0)),
        (from_0(&[]), &[0, 0], Err((14, 0)), Err((5, 0))),
        (from_0(&[]), &[0], Err((7, 0)), Err((7, 0))),
        (from_0(&[2; 65]), &[9, 99], Err((1, 0)), Err((1, 0))),
        (from_0(&[2; 2]), &many, Err((6, 70_000)), Err((6, 70_000))),
    ];
    for (list, pairs, late, short) in rows {
        let text = || rows_of(&list, pairs);
        let got = lent::lateness(&list.starts, &list.deadlines, pairs, guard);
        hold(got == late, "a lateness that is known", &late, &got, &text);
        let got = lent::shortest(&list.starts, &list.deadlines, pairs, guard);
        hold(got == short, "a shortest time that is known", &short, &got, &text);
    }
}

/// Faults of the rows, of a job and of the pairs, each with each, on lists of few jobs and of many.
pub fn sweep(guard: usize, tally: &mut Tally) {
    for n in [0, 1, 2, 3, 64, 65] {
        for (start, deadline) in [(0, 40), (4096, 40), (0, 4097), (65_535, 65_535), (9, 9), (9, 0), (39, 40)] {
            for place in [0, n / 2] {
                let mut list = List { starts: vec![0; n], deadlines: vec![40; n], orders: vec![] };
                if place < n {
                    (list.starts[place], list.deadlines[place]) = (start, deadline);
                }
                for length in [n, n + 1, n.saturating_sub(1)] {
                    list.deadlines.resize(length, 40);
                    swept(&list, n as u16, guard, tally);
                }
            }
        }
    }
}

/// One list with pairs of every kind: whole and not, of jobs not held, of a job and itself, in loops.
fn swept(list: &List, n: u16, guard: usize, tally: &mut Tally) {
    let rows: [&[u16]; 16] = [
        &[],
        &[0],
        &[0, 1],
        &[0, 1, 1],
        &[0, 0],
        &[n, 0],
        &[0, n],
        &[n, n],
        &[65_535, 0],
        &[0, 1, 1, 0],
        &[0, 1, 1, 1, 1, 0],
        &[0, 1, 1, 0, 1, 1],
        &[0, 1, 1, 2, 2, 0],
        &[0, 0, 1, n, n, 1],
        &[0, 1, n, 1, 1, n],
        &[0, 1, 0, 1, 0, 2, 1, 2],
    ];
    for pairs in rows {
        asked(list, pairs, guard, tally);
        tally.swept += 1;
    }
}
