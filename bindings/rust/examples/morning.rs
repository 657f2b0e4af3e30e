//! A morning on the buoy: two readings, then the report on both, and a request that comes too late.
use planner::{BOOK_BYTES, Book, JobIndex, PLAN_BYTES, Refusal};

fn main() -> Result<(), Refusal> {
    let mut book = Book::open();
    let wind = book.add_job(0, 4)?;
    let swell = book.add_job(0, 4)?;
    let report = book.add_job(1, 3)?;
    book.add_order(wind, report)?;
    book.add_order(swell, report)?;
    book.add_job(2, 3)?;
    book.add_job(2, 3)?;
    if let Err(refusal) = book.add_job(2, 3) {
        println!("one more job: refused {}, class {}", refusal.number, refusal.class() as u8);
    }

    let mut plan = [0; PLAN_BYTES];
    let finish = book.plan(&mut plan)?;
    for (slot, row) in plan[..2 * finish].chunks(2).enumerate() {
        println!("slot {slot}: {row:?}");
    }
    for job in (0..book.size() as u16).map(JobIndex) {
        let place = book.place(job)?;
        println!("job {} on core {} ends at {}, spare {}", job.0, place.core.0, place.end, place.spare);
    }

    let mut file = [0; BOOK_BYTES];
    let length = book.write(&mut file)?;
    println!("{length} bytes of job file");
    Ok(())
}
