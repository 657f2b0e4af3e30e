//! The proved planner and the same engine in plain Rust, side by side in one run.
//!
//!     speed times [ROUNDS]       the table of times: the least of so many, and the ratio
//!     speed cases                the names of the cases, one a line
//!     speed count CASE SIDE N    one case N times, for a counter of instructions
//!     speed file KIND            the job file of levels or of the chain
//!     speed listing              the plain listing of the job file at standard input
mod engine;
mod listing;
mod lists;

use lists::List;
use std::hint::black_box;
use std::io::{Read, Write};
use std::process::{Command, Stdio};

type Work = Box<dyn FnMut() -> usize>;

/// One piece of work on either side; what both answer is compared.
struct Pair {
    proved: Work,
    plain: Work,
}

/// A name, and how to make the work from so many seeds.
struct Case {
    name: String,
    make: Box<dyn Fn(usize) -> Pair>,
}

const LISTS: usize = 12;

fn main() {
    let words: Vec<String> = std::env::args().collect();
    let word = |k: usize| words.get(k).map_or("", |w| w.as_str());
    match word(1) {
        "times" => times(word(2).parse().unwrap_or(41)),
        "cases" => cases().iter().for_each(|case| println!("{}", case.name)),
        "count" => count(word(2), word(3), word(4).parse().unwrap()),
        "file" => std::io::stdout().write_all(&file_of(word(2))).unwrap(),
        "listing" => {
            let mut file = vec![];
            std::io::stdin().read_to_end(&mut file).unwrap();
            print!("{}", listing::listing(&file));
        }
        _ => eprintln!("speed times [ROUNDS] | cases | count CASE SIDE CALLS | file KIND | listing"),
    }
}

fn cases() -> Vec<Case> {
    let mut cases = vec![];
    let mut add = |name: String, make: Box<dyn Fn(usize) -> Pair>| cases.push(Case { name, make });
    let kinds: [(&str, fn(usize, usize) -> List); 4] =
        [("tight", lists::tight), ("barely none", lists::barely_none), ("wide", lists::wide), ("far", lists::far)];
    for (kind, make) in kinds {
        for n in [8, 16, 32, 64] {
            add(
                format!("list {kind} {n}"),
                Box::new(move |seeds| whole((1..=seeds).map(|seed| make(n, seed)).collect())),
            );
        }
    }
    for (kind, make) in kinds {
        let lists = move |seeds: usize| (1..=seeds).map(|seed| make(64, seed)).collect();
        add(format!("lateness {kind} 64"), Box::new(move |seeds| how_late(lists(seeds))));
        add(format!("shortest {kind} 64"), Box::new(move |seeds| how_short(lists(seeds))));
    }
    add("one more job".into(), Box::new(|seeds| request(books(lists::tight, 63, seeds), last_job(seeds))));
    add(
        "one more order".into(),
        Box::new(|seeds| {
            let books = books(lists::tight, 64, seeds);
            let orders = books.iter().map(Both::new_order).collect();
            request(books, orders)
        }),
    );
    add(
        "earlier deadline".into(),
        Box::new(|seeds| {
            let books = books(lists::tight, 64, seeds);
            let drawn = books.iter().map(|both| Ask::Earlier(20, both.plain.latest[20] - 1)).collect();
            request(books, drawn)
        }),
    );
    add("plan near".into(), Box::new(|seeds| plan(books(lists::tight, 64, seeds))));
    add("plan far".into(), Box::new(|seeds| plan(books(lists::far, 64, seeds))));
    add("place".into(), Box::new(|seeds| place(books(lists::tight, 64, seeds))));
    for (kind, list) in [("levels", lists::levels as fn() -> List), ("chain", lists::chain)] {
        add(format!("read {kind}"), Box::new(move |_| read(&Both::of(&list(), 64))));
        add(format!("write {kind}"), Box::new(move |_| write(&Both::of(&list(), 64))));
        add(format!("listing {kind}"), Box::new(move |_| listed(file_of(kind))));
    }
    cases
}

fn file_of(kind: &str) -> Vec<u8> {
    Both::of(&if kind == "chain" { lists::chain() } else { lists::levels() }, 64).file()
}

fn books(make: fn(usize, usize) -> List, n: usize, seeds: usize) -> Vec<Both> {
    (1..=seeds).map(|seed| Both::of(&make(64, seed), n)).collect()
}

fn last_job(seeds: usize) -> Vec<Ask> {
    (1..=seeds).map(|seed| lists::tight(64, seed)).map(|list| Ask::Job(list.starts[63], list.deadlines[63])).collect()
}

/// The same book on both sides.
#[derive(Clone)]
struct Both {
    proved: planner::Book,
    plain: engine::Book,
}

#[derive(Clone, Copy)]
enum Ask {
    Job(u16, u16),
    Order(u16, u16),
    Earlier(u16, u16),
}

fn ask_proved(book: &mut planner::Book, ask: Ask) -> usize {
    use planner::{JobIndex, Request};
    let request = match ask {
        Ask::Job(start, deadline) => Request::Job { start, deadline },
        Ask::Order(first, second) => Request::Before { first: JobIndex(first), second: JobIndex(second) },
        Ask::Earlier(job, deadline) => Request::Earlier { job: JobIndex(job), deadline },
    };
    told(book.apply(request).map_err(|r| (r.number, r.value)))
}

fn ask_plain(book: &mut engine::Book, ask: Ask) -> usize {
    told(match ask {
        Ask::Job(start, deadline) => book.add_job(start, deadline),
        Ask::Order(first, second) => book.add_order(first as usize, second as usize),
        Ask::Earlier(job, deadline) => book.draw_in(job as usize, deadline),
    })
}

/// An answer as one number.
fn told(answer: engine::Answer) -> usize {
    answer.unwrap_or_else(|(number, value)| 1_000_000 * number as usize + value)
}

impl Both {
    /// The first n jobs of a list and the orders among them.
    fn of(list: &List, n: usize) -> Both {
        let mut both = Both { proved: planner::Book::open(), plain: engine::Book::open() };
        let jobs = (0..n).map(|i| Ask::Job(list.starts[i], list.deadlines[i]));
        let pairs = list.pairs.chunks(2).filter(|p| p.iter().all(|&job| (job as usize) < n));
        for ask in jobs.chain(pairs.map(|p| Ask::Order(p[0], p[1]))) {
            let (a, b) = (ask_proved(&mut both.proved, ask), ask_plain(&mut both.plain, ask));
            assert!(a == b && a < 64);
        }
        both
    }

    /// An order that does not follow yet.
    fn new_order(&self) -> Ask {
        let before = &self.plain.before;
        let pairs = (0..64u16).flat_map(|a| (0..64u16).map(move |b| (a, b))).skip(1000);
        let free =
            |&(a, b): &(u16, u16)| a != b && before[a as usize] >> b & 1 == 0 && before[b as usize] >> a & 1 == 0;
        let (a, b) = pairs.into_iter().find(free).unwrap();
        Ask::Order(a, b)
    }

    fn file(&self) -> Vec<u8> {
        let mut file = vec![0; 24_576];
        let length = self.plain.write(&mut file).unwrap();
        file.truncate(length);
        file
    }
}

/// Goes round a row of things, one a call.
fn round<T>(things: Vec<T>) -> impl FnMut() -> (usize, std::rc::Rc<Vec<T>>) {
    let things = std::rc::Rc::new(things);
    let mut k = 0;
    move || {
        k = (k + 1) % things.len();
        (k, things.clone())
    }
}

fn whole(lists: Vec<List>) -> Pair {
    let (mut ours, mut theirs) = (round(lists.clone()), round(lists));
    let proved = move || {
        let (k, lists) = ours();
        let (list, mut row) = (black_box(&lists[k]), [0; 64]);
        let answer = planner::judge(&list.starts, &list.deadlines, &list.pairs, &mut row);
        told(answer.map(|_| 0).map_err(|r| (r.number, r.value))) + row[3] as usize
    };
    let plain = move || {
        let (k, lists) = theirs();
        let (list, mut row) = (black_box(&lists[k]), [0; 64]);
        told(engine::judge(&list.starts, &list.deadlines, &list.pairs, &mut row)) + row[3] as usize
    };
    Pair { proved: Box::new(proved), plain: Box::new(plain) }
}

fn how_late(lists: Vec<List>) -> Pair {
    let (mut ours, mut theirs) = (round(lists.clone()), round(lists));
    let proved = move || {
        let (k, lists) = ours();
        let list = black_box(&lists[k]);
        let late = planner::lateness(&list.starts, &list.deadlines, &list.pairs);
        told(late.map(|late| (4096 + late as i32) as usize).map_err(|r| (r.number, r.value)))
    };
    let plain = move || {
        let (k, lists) = theirs();
        let list = black_box(&lists[k]);
        told(engine::lateness(&list.starts, &list.deadlines, &list.pairs).map(|late| (4096 + late) as usize))
    };
    Pair { proved: Box::new(proved), plain: Box::new(plain) }
}

fn how_short(lists: Vec<List>) -> Pair {
    let (mut ours, mut theirs) = (round(lists.clone()), round(lists));
    let proved = move || {
        let (k, lists) = ours();
        let list = black_box(&lists[k]);
        told(planner::shortest(&list.starts, &list.deadlines, &list.pairs).map_err(|r| (r.number, r.value)))
    };
    let plain = move || {
        let (k, lists) = theirs();
        let list = black_box(&lists[k]);
        told(engine::shortest(&list.starts, &list.deadlines, &list.pairs))
    };
    Pair { proved: Box::new(proved), plain: Box::new(plain) }
}

/// A request on a copy of a book; the copy is made on both sides.
fn request(books: Vec<Both>, asks: Vec<Ask>) -> Pair {
    let (mut ours, mut theirs) = (round(books.clone()), round(books));
    let again = asks.clone();
    let proved = move || {
        let (k, books) = ours();
        let mut book = black_box(&books[k].proved).clone();
        ask_proved(&mut book, asks[k]) + black_box(&book).size()
    };
    let plain = move || {
        let (k, books) = theirs();
        let mut book = black_box(&books[k].plain).clone();
        ask_plain(&mut book, again[k]) + black_box(&book).size()
    };
    Pair { proved: Box::new(proved), plain: Box::new(plain) }
}

fn plan(books: Vec<Both>) -> Pair {
    let (mut ours, mut theirs) = (round(books.clone()), round(books));
    let (mut out, mut other) = (vec![0; 8192], vec![0; 8192]);
    let proved = move || {
        let (k, books) = ours();
        told(black_box(&books[k].proved).plan(&mut out).map_err(|r| (r.number, r.value))) + out[5] as usize
    };
    let plain = move || {
        let (k, books) = theirs();
        told(black_box(&books[k].plain).plan(&mut other)) + other[5] as usize
    };
    Pair { proved: Box::new(proved), plain: Box::new(plain) }
}

/// The place of a job in the middle of its book.
fn place(books: Vec<Both>) -> Pair {
    let (mut ours, mut theirs) = (round(books.clone()), round(books));
    let proved = move || {
        let (k, books) = ours();
        let place = black_box(&books[k].proved).place(planner::JobIndex(30)).unwrap();
        place.slot.0 + 2 * place.core.0 + 3 * place.end + 5 * place.spare
    };
    let plain = move || {
        let (k, books) = theirs();
        let [slot, core, end, spare] = black_box(&books[k].plain).place(30).unwrap();
        slot + 2 * core + 3 * end + 5 * spare
    };
    Pair { proved: Box::new(proved), plain: Box::new(plain) }
}

fn read(both: &Both) -> Pair {
    let (file, other) = (both.file(), both.file());
    let proved = move || {
        let (mut book, mut at) = (planner::Book::open(), 0);
        while let planner::Event::Request(answer) = book.read(black_box(&file), &mut at) {
            assert!(answer.is_ok());
        }
        at + book.size()
    };
    let plain = move || {
        let (mut book, mut at) = (engine::Book::open(), 0);
        while let Some(answer) = book.read(black_box(&other), &mut at) {
            assert!(answer.is_ok());
        }
        at + book.size()
    };
    Pair { proved: Box::new(proved), plain: Box::new(plain) }
}

fn write(both: &Both) -> Pair {
    let (mut out, mut other) = (vec![0; 24_576], vec![0; 24_576]);
    let (ours, theirs) = (both.clone(), both.clone());
    let proved =
        move || told(black_box(&ours.proved).write(&mut out).map_err(|r| (r.number, r.value))) + out[400] as usize;
    let plain = move || told(black_box(&theirs.plain).write(&mut other)) + other[400] as usize;
    Pair { proved: Box::new(proved), plain: Box::new(plain) }
}

/// The whole listing, as two programs: what each prints must be the same.
fn listed(file: Vec<u8>) -> Pair {
    let again = file.clone();
    let own = std::env::current_exe().unwrap();
    let proved = move || summed(&printed(&mut Command::new("target/bin/listing"), &file));
    let plain = move || summed(&printed(Command::new(&own).arg("listing"), &again));
    Pair { proved: Box::new(proved), plain: Box::new(plain) }
}

fn printed(program: &mut Command, file: &[u8]) -> Vec<u8> {
    let mut child = program.stdin(Stdio::piped()).stdout(Stdio::piped()).spawn().expect("the program is built");
    child.stdin.take().unwrap().write_all(file).unwrap();
    child.wait_with_output().unwrap().stdout
}

fn summed(text: &[u8]) -> usize {
    text.iter().fold(0, |sum: usize, &byte| sum.wrapping_mul(31).wrapping_add(byte as usize))
}

/// Processor time of this thread, and of the programs that it ran, in nanoseconds, since a machine may be shared.
fn now() -> u64 {
    let (mut time, mut used) = ([0i64; 2], [0i64; 18]);
    unsafe extern "C" {
        fn clock_gettime(clock: i32, time: *mut i64) -> i32;
        fn getrusage(who: i32, used: *mut i64) -> i32;
    }
    unsafe {
        clock_gettime(3, time.as_mut_ptr());
        getrusage(-1, used.as_mut_ptr());
    }
    let children = (used[0] + used[2]) * 1_000_000_000 + (used[1] + used[3]) * 1_000;
    (time[0] * 1_000_000_000 + time[1] + children) as u64
}

/// Nanoseconds a call, over so many calls, and the sum of what they answered.
fn timed(work: &mut dyn FnMut() -> usize, calls: usize) -> (f64, usize) {
    let begin = now();
    let sum = (0..calls).map(|_| work()).fold(0usize, |sum, told| sum.wrapping_add(told));
    ((now() - begin) as f64 / calls as f64, sum)
}

/// One row of the table: the work, how many calls are timed at once, and the least nanoseconds a call on either side.
struct Row {
    name: String,
    pair: Pair,
    calls: usize,
    ours: f64,
    theirs: f64,
}

impl Row {
    fn new(case: Case) -> Row {
        let mut pair = (case.make)(LISTS);
        let (first, second) = (timed(&mut pair.proved, LISTS), timed(&mut pair.plain, LISTS));
        assert!(first.1 == second.1, "{}: the two sides answer differently", case.name);
        let calls = ((400_000.0 / second.0) as usize).max(1);
        Row { name: case.name, pair, calls, ours: f64::MAX, theirs: f64::MAX }
    }
}

/// The least counts, since others on the machine add to a time, even to processor time; each round goes through all the
/// work, so that no row is timed at one busy moment alone.
fn times(rounds: usize) {
    let mut rows: Vec<Row> = cases().into_iter().map(Row::new).collect();
    for _ in 0..rounds {
        for row in &mut rows {
            row.ours = row.ours.min(timed(&mut row.pair.proved, row.calls).0);
            row.theirs = row.theirs.min(timed(&mut row.pair.plain, row.calls).0);
        }
    }
    println!("| Work | proved, µs | plain Rust, µs | ratio |\n|---|---|---|---|");
    for Row { name, ours, theirs, .. } in rows {
        println!("| {name} | {:.2} | {:.2} | {:.2} |", ours / 1000.0, theirs / 1000.0, ours / theirs);
    }
}

/// What runs inside this is counted.
#[unsafe(no_mangle)]
#[inline(never)]
extern "C" fn bench_counted(work: &mut Work) -> usize {
    work()
}

fn count(name: &str, side: &str, calls: usize) {
    let case = cases().into_iter().find(|case| case.name == name).expect("a case");
    let mut pair = (case.make)(calls);
    let work = if side == "proved" { &mut pair.proved } else { &mut pair.plain };
    for _ in 0..calls {
        black_box(bench_counted(work));
    }
}
