//! The listing of a job file in plain Rust, as the listing program prints it.
use crate::engine::Book;
use std::fmt::Write;

pub fn listing(file: &[u8]) -> String {
    let (mut book, mut at, mut text) = (Book::open(), 0, String::new());
    while let Some(answer) = book.read(file, &mut at) {
        match answer {
            Ok(_) => {}
            Err((number @ 9..=11, value)) => {
                writeln!(text, "stopped at {value} refused {number}").unwrap();
                break;
            }
            Err((number, _)) => writeln!(text, "record {} refused {number}", at / 6 - 1).unwrap(),
        }
    }
    let mut plan = [255; 8192];
    let slots = book.plan(&mut plan).unwrap();
    writeln!(text, "jobs {} slots {slots}", book.size()).unwrap();
    let name = |job: u8| if job == 255 { "-".to_string() } else { job.to_string() };
    let mut ends = [0; 64];
    for slot in 0..slots {
        let (a, b) = (plan[2 * slot], plan[2 * slot + 1]);
        if a != 255 || b != 255 {
            writeln!(text, "slot {slot} {} {}", name(a), name(b)).unwrap();
        }
        for job in [a, b].into_iter().filter(|&job| job != 255) {
            ends[job as usize] = slot + 1;
        }
    }
    for job in 0..book.size() {
        let (start, latest, end) = (book.start[job], book.latest[job], ends[job]);
        writeln!(text, "job {job} start {start} latest {latest} end {end} spare {}", latest as usize - end).unwrap();
    }
    text
}
