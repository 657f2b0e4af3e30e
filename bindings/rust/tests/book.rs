//! The safe face itself: each method hands over what it should and tells what came back.
use planner::*;

const REFUSED_4: Refusal = Refusal { number: 4, value: 0 };

fn three_levels() -> Book {
    let mut book = Book::open();
    for (start, deadline) in [(0, 4), (0, 4), (1, 3)] {
        book.add_job(start, deadline).unwrap();
    }
    book.add_order(JobIndex(0), JobIndex(2)).unwrap();
    book.add_order(JobIndex(1), JobIndex(2)).unwrap();
    book
}

#[test]
fn an_open_book_is_empty() {
    let book = Book::open();
    assert_eq!(book.size(), 0);
    assert_eq!(book.plan(&mut []), Ok(0));
    assert_eq!(book.write(&mut []), Ok(0));
    assert_eq!(book.place(JobIndex(0)), Err(Refusal { number: 5, value: 0 }));
}

#[test]
fn requests_answer_and_refusals_change_nothing() {
    let mut book = three_levels();
    assert_eq!(book.add_job(2, 3), Ok(JobIndex(3)));
    assert_eq!(book.apply(Request::Earlier { job: JobIndex(2), deadline: 2 }), Ok(0));
    assert_eq!(book.draw_in(JobIndex(2), 5000).unwrap_err().number, 2);
    let held = book.clone();
    assert_eq!(book.draw_in(JobIndex(0), 0).unwrap_err().number, 3);
    assert_eq!(book.add_order(JobIndex(2), JobIndex(0)).unwrap_err().class(), Class::Request);
    assert_eq!(book.add_job(2, 3), Ok(JobIndex(4)));
    let full = book.clone();
    assert_eq!(book.add_job(2, 3), Err(REFUSED_4));
    assert_eq!(book, full);
    assert_ne!(book, held);
}

#[test]
fn what_a_book_holds_is_told() {
    let book = three_levels();
    let times: Vec<_> = (0..4).map(|j| (book.start(JobIndex(j)), book.latest(JobIndex(j)))).collect();
    assert_eq!(times, [(Some(0), Some(2)), (Some(0), Some(2)), (Some(1), Some(3)), (None, None)]);
    assert!(book.precedes(JobIndex(0), JobIndex(2)) && book.precedes(JobIndex(1), JobIndex(2)));
    assert!(!book.precedes(JobIndex(2), JobIndex(0)) && !book.precedes(JobIndex(65535), JobIndex(2)));
    assert!(!book.precedes(JobIndex(0), JobIndex(65535)) && !book.precedes(JobIndex(64), JobIndex(2)));
}

#[test]
fn rows_are_kept_and_come_back() {
    let book = three_levels();
    let (times, mut before) = (*book.rows().0, *book.rows().1);
    assert_eq!((times[0], &times[1..4], &times[65..68], before[2]), (3, &[0, 0, 1][..], &[2, 2, 3][..], 3));
    assert_eq!(Book::of_rows(&times, &before), Some(book));
    before[0] = 4;
    assert_eq!(Book::of_rows(&times, &before), None);
}

#[test]
fn plan_and_place() {
    let book = three_levels();
    let mut plan = [7; 6];
    assert_eq!(book.plan(&mut plan[..3]), Err(Refusal { number: 8, value: 4 }));
    assert_eq!(book.plan(&mut plan), Ok(2));
    assert_eq!(plan, [0, 1, 2, 255, 7, 7]);
    let place = Place { slot: SlotTime(0), core: CoreIndex(1), end: 1, spare: 1 };
    assert_eq!(book.place(JobIndex(1)), Ok(place));
}

#[test]
fn a_file_is_written_and_read_back() {
    let book = three_levels();
    let mut file = [0; 31];
    assert_eq!(book.write(&mut file[..29]), Err(Refusal { number: 8, value: 30 }));
    assert_eq!(book.write(&mut file), Ok(30));
    let (mut copy, mut at) = (Book::open(), 0);
    for record in 0..5 {
        assert_eq!(copy.read(&file[..30], &mut at), Event::Request(Ok(if record < 3 { record } else { 0 })));
    }
    assert_eq!((copy.read(&file[..30], &mut at), at), (Event::End, 30));
    assert_eq!(copy, book);
    assert_eq!(copy.read(&file, &mut at), Event::Stopped(Refusal { number: 11, value: 30 }));
    assert_eq!(copy.read(b"OR\0\x09\0\x01", &mut 0), Event::Request(Err(Refusal { number: 5, value: 0 })));
    assert_eq!(copy.read(b"OR\0\x01\0\x09", &mut 0), Event::Request(Err(Refusal { number: 12, value: 0 })));
    assert_eq!(copy.read(b"OR\0\x09\0\x09", &mut 0), Event::Request(Err(Refusal { number: 5, value: 0 })));
    assert_eq!(copy.read(b"OR\0\x01\0\x01", &mut 0), Event::Request(Err(Refusal { number: 13, value: 0 })));
    assert_eq!(copy.read(b"or\0\0\0\x01", &mut 0), Event::Stopped(Refusal { number: 10, value: 0 }));
}

#[test]
fn a_whole_list() {
    let mut latest = [9; 4];
    assert_eq!(judge(&[0, 1, 1], &[2, 2, 2], &[], &mut latest), Ok(()));
    assert_eq!(latest, [1, 2, 2, 9]);
    assert_eq!(judge(&[0; 3], &[1; 3], &[], &mut latest), Err(REFUSED_4));
    assert_eq!(judge(&[0; 2], &[1, 2], &[0, 1, 1, 0], &mut latest), Err(Refusal { number: 6, value: 1 }));
    assert_eq!(judge(&[0; 2], &[1, 2], &[0, 1, 1, 1], &mut latest), Err(Refusal { number: 13, value: 1 }));
    assert_eq!(judge(&[0; 2], &[1, 2], &[0, 0, 1, 2], &mut latest), Err(Refusal { number: 12, value: 1 }));
    assert_eq!(judge(&[0; 2], &[1, 2], &[0, 0, 2, 1], &mut latest), Err(Refusal { number: 5, value: 1 }));
    assert_eq!(judge(&[], &[], &[], &mut []), Ok(()));
}

#[test]
fn how_late_and_how_short() {
    assert_eq!(lateness(&[0; 8], &[2; 8], &[]), Ok(2));
    assert_eq!(shortest(&[0; 8], &[2; 8], &[]), Err(REFUSED_4));
    assert_eq!(lateness(&[0; 3], &[1, 9, 9], &[0, 1, 1, 2]), Ok(0));
    assert_eq!(lateness(&[0; 3], &[3, 9, 9], &[0, 1, 1, 2]), Ok(-2));
    assert_eq!(shortest(&[0; 3], &[3, 9, 9], &[0, 1, 1, 2]), Ok(3));
    assert_eq!(shortest(&[], &[], &[]), Ok(0));
}

#[test]
fn the_plan_made_is_not_the_shortest() {
    let mut book = Book::open();
    for deadline in [1, 2, 2, 3] {
        book.add_job(0, deadline).unwrap();
    }
    book.add_order(JobIndex(2), JobIndex(3)).unwrap();
    assert_eq!(book.plan(&mut [0; 6]), Ok(3));
    assert_eq!(shortest(&[0; 4], &[1, 2, 2, 3], &[2, 3]), Ok(2));
    assert_eq!(lateness(&[0; 4], &[1, 2, 2, 3], &[2, 3]), Ok(0));
}

#[test]
fn lateness_from_end_to_end() {
    assert_eq!(lateness(&[0], &[4096], &[]), Ok(-4095));
    assert_eq!(shortest(&[0], &[4096], &[]), Ok(1));
    assert_eq!(shortest(&[4095], &[4096], &[]), Ok(4096));
    // one chain from 4,095, whose last job is due by 1
    let (mut starts, mut deadlines) = ([4095; 64], [4096; 64]);
    (starts[63], deadlines[63]) = (0, 1);
    let chain: Vec<u16> = (0..63).flat_map(|job| [job, job + 1]).collect();
    assert_eq!(lateness(&starts, &deadlines, &chain), Ok(4158));
    assert_eq!(shortest(&starts, &deadlines, &chain), Err(REFUSED_4));
}

/// Both calls on a whole list give this refusal.
fn both_refuse(starts: &[u16], deadlines: &[u16], pairs: &[u16], number: u8, value: usize) {
    assert_eq!(lateness(starts, deadlines, pairs), Err(Refusal { number, value }));
    assert_eq!(shortest(starts, deadlines, pairs), Err(Refusal { number, value }));
}

#[test]
fn lateness_and_shortest_refuse() {
    both_refuse(&[0; 2], &[2; 3], &[0, 0], 7, 0);
    both_refuse(&[0; 65], &[0; 65], &[0, 0, 9], 7, 0);
    both_refuse(&[], &[], &[9], 7, 0);
    both_refuse(&[0; 65], &[0; 65], &[99, 99], 1, 0);
    both_refuse(&[0, 0, 4096], &[2; 3], &[0, 0], 2, 2);
    both_refuse(&[0, 0, 9], &[2, 4097, 2], &[0, 0], 2, 1);
    both_refuse(&[0, 2, 9], &[2, 2, 4097], &[0, 0], 3, 1);
    both_refuse(&[0; 2], &[2; 2], &[0, 0, 2, 2], 5, 1);
    both_refuse(&[0; 2], &[2; 2], &[0, 0, 1, 2], 12, 1);
    both_refuse(&[0; 2], &[2; 2], &[0, 1, 1, 1, 1, 0], 13, 1);
    both_refuse(&[0; 2], &[2; 2], &[0, 1, 1, 0, 1, 1], 6, 1);
    both_refuse(&[0; 3], &[1; 3], &[0, 1, 1, 2, 0, 1, 2, 0], 6, 3);
}

#[test]
fn an_empty_list_has_no_lateness() {
    for pairs in [&[][..], &[0, 0], &[9, 9, 9, 9]] {
        let refusal = lateness(&[], &[], pairs).unwrap_err();
        assert_eq!((refusal.number, refusal.value, refusal.class()), (14, 0, Class::Form));
        assert_eq!(refusal.to_string(), "refused 14: the lateness of an empty list (0)");
    }
    assert_eq!(shortest(&[], &[], &[0, 0]), Err(Refusal { number: 5, value: 0 }));
}
