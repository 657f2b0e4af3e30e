//! What is tried first: the classes, and the small lists of document 01.
use crate::lent::{self, Lent};
use crate::lists::{book_of, judge};
use crate::printed::{Tally, hold, keyed, requests_of};
use crate::random::Random;
use crate::reference::{self, List};

pub fn classes() {
    for number in 0..=255 {
        let (wanted, got) = (reference::class(number), lent::class(number));
        hold(wanted == got, "class", &wanted, &got, &|| number.to_string());
    }
}

/// The small lists of document 01, and the largest.
pub fn small_lists(guard: usize) {
    let list = |jobs: &[(u16, u16)], orders: &[(usize, usize)]| List {
        starts: jobs.iter().map(|j| j.0).collect(),
        deadlines: jobs.iter().map(|j| j.1).collect(),
        orders: orders.to_vec(),
    };
    let fan = [(0, 2), (0, 2), (0, 3), (0, 3), (0, 3), (0, 3)];
    let (fits, none): (&[u16], _) = (&[], Err((4, 0)));
    let rows = [
        (list(&[], &[]), Ok(fits)),
        (list(&[(0, 1)], &[]), Ok(&[1])),
        (list(&[(0, 1); 2], &[]), Ok(&[1, 1])),
        (list(&[(0, 1); 3], &[]), none),
        (list(&[(0, 2); 4], &[]), Ok(&[2; 4])),
        (list(&[(0, 2); 5], &[]), none),
        (list(&[(0, 2), (0, 2)], &[(0, 1)]), Ok(&[1, 2])),
        (list(&[(0, 2), (0, 1)], &[(0, 1)]), none),
        (list(&[(0, 2), (1, 2), (1, 2)], &[]), Ok(&[1, 2, 2])),
        (list(&[(0, 2), (0, 2), (0, 3), (0, 2)], &[(2, 3)]), Ok(&[2, 2, 1, 2])),
        (list(&fan, &[(2, 3), (2, 4), (2, 5)]), Ok(&[2, 2, 1, 3, 3, 3])),
        (list(&[(1, 2), (1, 2), (0, 3), (0, 3), (0, 3)], &[(0, 2), (0, 3), (1, 4)]), none),
        (list(&[(0, 1), (0, 2)], &[(0, 1), (1, 0)]), Err((6, 1))),
        (list(&[(4095, 4096)], &[]), Ok(&[4096])),
        (list(&[(0, 4097)], &[]), Err((2, 0))),
        (list(&[(5, 5)], &[]), Err((3, 0))),
        (list(&[(0, 32); 64], &[]), Ok(&[32; 64])),
        (list(&[(0, 33); 65], &[]), Err((1, 0))),
    ];
    for (list, result) in rows {
        let pairs = list.pairs();
        let answer = judge(&list, &pairs, &vec![9; list.size()], guard);
        let mut row = Lent::new(&vec![9; list.size()], 9, guard);
        let got = lent::judge(&list.starts, &list.deadlines, &pairs, &mut row);
        let text = || keyed(requests_of(&list));
        hold(got == result.map(|_| 0) && got == answer, "small list", &result, &got, &text);
        if let Ok(times) = result {
            hold(row.row() == times, "latest times of a small list", &times, &row.row(), &text);
            book_of(&mut Random::new(1), &list, guard, &mut Tally::default());
        }
    }
}
