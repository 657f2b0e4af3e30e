//! The proved planner against documents 01 and 02 (A1, A2) written a second time, on random lists, runs of requests and
//! files.
//!
//!     compare LISTS SEED [exact]
//!
//! `exact` lends rows without guard cells, for a run under valgrind. A disagreement is printed as keyed text.
mod late;
mod lent;
mod lists;
mod printed;
mod random;
mod reference;
mod runs;
mod small;

use printed::Tally;
use random::Random;
use std::process::exit;

fn main() {
    let words: Vec<String> = std::env::args().collect();
    let number = |k: usize, or: u64| words.get(k).map_or(or, |w| w.parse().expect("a number"));
    let (count, seed) = (number(1, 100_000), number(2, 1));
    let guard = if words.get(3).is_some_and(|w| w == "exact") { 0 } else { 8 };
    let mut tally = Tally::default();
    small::classes();
    small::small_lists(guard);
    late::known(guard);
    late::sweep(guard, &mut tally);
    for k in 0..count {
        let random = &mut Random::new(seed * 1_000_003 + k);
        lists::whole_list(random, guard, &mut tally);
        if k % 8 == 0 {
            runs::run(random, guard, &mut tally);
        }
        if k % 3 == 0 {
            runs::file(random, guard, &mut tally);
        }
        late::random_list(random, guard, &mut tally);
    }
    println!("{tally:?}");
    let few = 3 * tally.with_plan < count || 3 * tally.without < count || tally.late.iter().any(|n| 20 * n < count);
    if count >= 1000 && few {
        println!("compare: the lists are too much of one kind");
        exit(1);
    }
    println!("compare: {count} lists agree");
}
