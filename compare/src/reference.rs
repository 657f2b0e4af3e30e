//! Documents 01 and 02 (A1, A2) a second time, in plain Rust, written from their text alone: no sets in bits, no short
//! ways.
//! A book keeps the whole list as told and works out its latest times from nothing after each request.

pub const JOBS: usize = 64;
pub const FILE: usize = 24_576;

/// What is answered, or the number of the refusal and what is returned with it.
pub type Answer = Result<usize, (u8, usize)>;

/// The list as told: deadlines as given, orders as given.
#[derive(Clone, Debug, Default, PartialEq)]
pub struct List {
    pub starts: Vec<u16>,
    pub deadlines: Vec<u16>,
    pub orders: Vec<(usize, usize)>,
}

/// `precedes[a][b]`: a chain of orders leads from a to b.
pub type Precedes = Vec<Vec<bool>>;

#[derive(Clone, Debug, Default, PartialEq)]
pub struct Book {
    pub list: List,
    pub precedes: Precedes,
    pub latest: Vec<u16>,
}

#[derive(Clone, Copy, Debug, PartialEq)]
pub enum Request {
    Job(u16, u16),
    Before(u16, u16),
    Earlier(u16, u16),
}

#[derive(Clone, Debug, PartialEq)]
pub enum Event {
    Request(Answer),
    End,
    Stopped(u8, usize),
}

impl List {
    pub fn size(&self) -> usize {
        self.starts.len()
    }

    /// The orders laid flat.
    pub fn pairs(&self) -> Vec<u16> {
        self.orders.iter().flat_map(|&(a, b)| [a as u16, b as u16]).collect()
    }

    pub fn precedes(&self) -> Precedes {
        let n = self.size();
        let mut precedes = vec![vec![false; n]; n];
        for &(a, b) in &self.orders {
            order(&mut precedes, a, b);
        }
        precedes
    }

    /// The least row nowhere below the starts in which every job is at least 1 above each job that precedes it.
    pub fn earliest(&self, precedes: &Precedes) -> Vec<i32> {
        let n = self.size();
        let mut earliest: Vec<i32> = self.starts.iter().map(|&s| s as i32).collect();
        let mut moved = true;
        while moved {
            moved = false;
            for a in 0..n {
                for b in 0..n {
                    if precedes[a][b] && earliest[b] < earliest[a] + 1 {
                        earliest[b] = earliest[a] + 1;
                        moved = true;
                    }
                }
            }
        }
        earliest
    }

    /// The greatest consistent row nowhere above the deadlines, or none.
    pub fn latest(&self, precedes: &Precedes) -> Option<Vec<u16>> {
        self.settled(precedes, self.look())
    }

    /// Whether a valid plan meets other deadlines, each made of the one told: the rule on them.
    pub fn fits(&self, precedes: &Precedes, due: impl Fn(i32) -> i32) -> bool {
        let row = self.deadlines.iter().map(|&d| due(d as i32)).collect();
        self.beneath(row, precedes, self.look()).is_some()
    }

    fn look(&self) -> Look {
        let small = self.size() <= 8 && self.deadlines.iter().all(|&d| d <= 12);
        if small { literal } else { counted }
    }

    /// The latest times by one way or the other to look at a job.
    pub fn settled(&self, precedes: &Precedes, look: Look) -> Option<Vec<u16>> {
        let row = self.deadlines.iter().map(|&d| d as i32).collect();
        let row = self.beneath(row, precedes, look)?;
        Some(row.iter().map(|&d| d as u16).collect())
    }

    /// The rule on a row until nothing moves.
    fn beneath(&self, mut row: Vec<i32>, precedes: &Precedes, look: Look) -> Option<Vec<i32>> {
        let earliest = self.earliest(precedes);
        let mut moved = true;
        while moved {
            moved = false;
            for i in 0..self.size() {
                let mut lower = look(i, &row, &earliest, &precedes[i]);
                while lower < row[i] && lower > earliest[i] {
                    row[i] = lower;
                    moved = true;
                    lower = look(i, &row, &earliest, &precedes[i]);
                }
                if lower < earliest[i] + 1 {
                    return None;
                }
            }
        }
        Some(row)
    }
}

/// One order more: a and all that precede it come before b and all that follow it.
fn order(precedes: &mut Precedes, a: usize, b: usize) {
    if precedes[a][b] {
        return;
    }
    for x in 0..precedes.len() {
        for y in 0..precedes.len() {
            if (x == a || precedes[x][a]) && (y == b || precedes[b][y]) {
                precedes[x][y] = true;
            }
        }
    }
}

/// A way to find a lower deadline for job i by the rule; its own deadline where nothing lowers it.
pub type Look = fn(usize, &[i32], &[i32], &[bool]) -> i32;

/// N(i, s, d): the jobs other than i that are due by d and follow i or have an earliest time of at least s.
fn pressing(i: usize, s: i32, d: i32, row: &[i32], earliest: &[i32], follows: &[bool]) -> i32 {
    let counts = |j: usize| j != i && row[j] <= d && (follows[j] || earliest[j] >= s);
    (0..row.len()).filter(|&j| counts(j)).count() as i32
}

/// Every whole s and d up to the greatest deadline, counting job by job.
pub fn literal(i: usize, row: &[i32], earliest: &[i32], follows: &[bool]) -> i32 {
    let greatest = *row.iter().max().unwrap();
    for s in earliest[i]..=row[i] {
        for d in row[i]..=greatest {
            let n = pressing(i, s, d, row, earliest, follows);
            if n >= 2 * (d - s) && row[i] > d - (n + 1) / 2 {
                return d - (n + 1) / 2;
            }
        }
    }
    row[i]
}

/// The same with N counted up along d; N is below the number of jobs, so a d far above s cannot ask for anything.
pub fn counted(i: usize, row: &[i32], earliest: &[i32], follows: &[bool]) -> i32 {
    let greatest = *row.iter().max().unwrap();
    let reach = row.len() as i32 / 2;
    let first = earliest[i].max(row[i] - reach);
    for s in first..=row[i] {
        let last = greatest.min(s + reach);
        let mut due = [0; JOBS / 2 + 1];
        for j in 0..row.len() {
            if j != i && row[j] <= last && (follows[j] || earliest[j] >= s) {
                due[(row[j] - row[i]).max(0) as usize] += 1;
            }
        }
        let mut n = 0;
        for d in row[i]..=last {
            n += due[(d - row[i]) as usize];
            if n >= 2 * (d - s) && row[i] > d - (n + 1) / 2 {
                return d - (n + 1) / 2;
            }
        }
    }
    row[i]
}

impl Book {
    pub fn size(&self) -> usize {
        self.list.size()
    }

    pub fn apply(&mut self, request: Request) -> Answer {
        let n = self.size();
        let mut list = self.list.clone();
        let mut answer = 0;
        match request {
            Request::Job(start, deadline) => {
                if n >= JOBS {
                    return Err((1, 0));
                }
                unsound(start, deadline, 0)?;
                list.starts.push(start);
                list.deadlines.push(deadline);
                answer = n;
            }
            Request::Before(first, second) => {
                let (first, second) = (first as usize, second as usize);
                held(n, first, second, 0)?;
                loopless(&self.precedes, first, second, 0)?;
                if self.precedes[first][second] {
                    return Ok(0);
                }
                list.orders.push((first, second));
            }
            Request::Earlier(job, deadline) => {
                let job = job as usize;
                if job >= n {
                    return Err((5, 0));
                }
                unsound(self.list.starts[job], deadline, 0)?;
                if deadline >= self.latest[job] {
                    return Ok(0);
                }
                list.deadlines[job] = deadline;
            }
        }
        let precedes = list.precedes();
        let latest = list.latest(&precedes).ok_or((4, 0))?;
        *self = Book { list, precedes, latest };
        Ok(answer)
    }

    /// Two jobs a slot from slot 0 to the finishing time; 255 is an idle core.
    pub fn slots(&self) -> Vec<[u8; 2]> {
        let n = self.size();
        let mut order: Vec<usize> = (0..n).collect();
        order.sort_by_key(|&i| (self.latest[i], i));
        let mut slot_of: Vec<Option<usize>> = vec![None; n];
        let mut slots = vec![];
        while slot_of.contains(&None) {
            let slot = slots.len();
            let mut row = [255; 2];
            for core in &mut row {
                let earlier = |a: usize| slot_of[a].is_some_and(|s| s < slot);
                let ready = |i: usize| {
                    self.list.starts[i] as usize <= slot
                        && (0..n).all(|a| !self.precedes[a][i] || earlier(a))
                        && slot_of[i].is_none()
                };
                if let Some(&i) = order.iter().find(|&&i| ready(i)) {
                    *core = i as u8;
                    slot_of[i] = Some(slot);
                }
            }
            slots.push(row);
        }
        slots
    }

    pub fn plan(&self, out: &mut [u8]) -> Answer {
        let slots = self.slots();
        let bytes = slots.concat();
        if out.len() < bytes.len() {
            return Err((8, bytes.len()));
        }
        out[..bytes.len()].copy_from_slice(&bytes);
        Ok(slots.len())
    }

    /// Slot, core, end and spare.
    pub fn place(&self, job: usize) -> Result<[usize; 4], (u8, usize)> {
        if job >= self.size() {
            return Err((5, 0));
        }
        let slots = self.slots();
        let slot = slots.iter().position(|row| row.contains(&(job as u8))).unwrap();
        let core = slots[slot].iter().position(|&j| j == job as u8).unwrap();
        Ok([slot, core, slot + 1, self.latest[job] as usize - (slot + 1)])
    }

    /// One record at an offset.
    pub fn read(&mut self, file: &[u8], at: &mut usize) -> Event {
        if file.len() > FILE {
            return Event::Stopped(9, 0);
        }
        if *at == file.len() {
            return Event::End;
        }
        if *at > file.len() || file.len() - *at < 6 {
            return Event::Stopped(11, *at);
        }
        let record = &file[*at..*at + 6];
        let x = u16::from_be_bytes([record[2], record[3]]);
        let y = u16::from_be_bytes([record[4], record[5]]);
        let request = match &record[..2] {
            b"JB" => Request::Job(x, y),
            b"OR" => Request::Before(x, y),
            b"TG" => Request::Earlier(x, y),
            _ => return Event::Stopped(10, *at),
        };
        *at += 6;
        Event::Request(self.apply(request))
    }

    /// The book as a job file.
    pub fn file(&self) -> Vec<u8> {
        let n = self.size();
        let jobs = (0..n).map(|i| Request::Job(self.list.starts[i], self.latest[i]));
        let pairs = (0..n).flat_map(|a| (0..n).map(move |b| (a, b)));
        let held = pairs.filter(|&(a, b)| self.precedes[a][b]);
        let orders = held.map(|(a, b)| Request::Before(a as u16, b as u16));
        jobs.chain(orders).flat_map(record).collect()
    }

    pub fn write(&self, out: &mut [u8]) -> Answer {
        let file = self.file();
        if out.len() < file.len() {
            return Err((8, file.len()));
        }
        out[..file.len()].copy_from_slice(&file);
        Ok(file.len())
    }
}

pub fn record(request: Request) -> Vec<u8> {
    let (mark, x, y) = match request {
        Request::Job(start, deadline) => (b"JB", start, deadline),
        Request::Before(first, second) => (b"OR", first, second),
        Request::Earlier(job, deadline) => (b"TG", job, deadline),
    };
    [*mark, x.to_be_bytes(), y.to_be_bytes()].concat()
}

fn unsound(start: u16, deadline: u16, place: usize) -> Result<(), (u8, usize)> {
    if start > 4095 || deadline > 4096 {
        return Err((2, place));
    }
    if deadline <= start {
        return Err((3, place));
    }
    Ok(())
}

/// 5 and 12: both jobs of an order are held.
fn held(n: usize, first: usize, second: usize, place: usize) -> Result<(), (u8, usize)> {
    if first >= n {
        return Err((5, place));
    }
    if second >= n {
        return Err((12, place));
    }
    Ok(())
}

/// 13 and 6: an order closes no loop.
fn loopless(precedes: &Precedes, first: usize, second: usize, place: usize) -> Result<(), (u8, usize)> {
    if first == second {
        return Err((13, place));
    }
    if precedes[second][first] {
        return Err((6, place));
    }
    Ok(())
}

/// The checks of a whole list once its rows belong together, and the list; pairs "first, second" laid flat.
fn sound(starts: &[u16], deadlines: &[u16], pairs: &[u16]) -> Result<(List, Precedes), (u8, usize)> {
    let n = starts.len();
    for job in 0..n {
        unsound(starts[job], deadlines[job], job)?;
    }
    let pairs: Vec<(usize, usize)> = pairs.chunks(2).map(|p| (p[0] as usize, p[1] as usize)).collect();
    for (place, &(a, b)) in pairs.iter().enumerate() {
        held(n, a, b, place)?;
    }
    let mut list = List { starts: starts.to_vec(), deadlines: deadlines.to_vec(), orders: vec![] };
    let mut precedes = list.precedes();
    for (place, &(a, b)) in pairs.iter().enumerate() {
        loopless(&precedes, a, b, place)?;
        list.orders.push((a, b));
        order(&mut precedes, a, b);
    }
    Ok((list, precedes))
}

/// The whole list at once.
pub fn judge(starts: &[u16], deadlines: &[u16], pairs: &[u16], latest: &mut [u16]) -> Answer {
    let n = starts.len();
    if n != deadlines.len() || pairs.len() % 2 == 1 || latest.len() < n {
        return Err((7, 0));
    }
    if n > JOBS {
        return Err((1, 0));
    }
    let (list, precedes) = sound(starts, deadlines, pairs)?;
    let row = list.latest(&precedes).ok_or((4, 0))?;
    latest[..n].copy_from_slice(&row);
    Ok(0)
}

/// The checks where no row receives; an empty list has no lateness.
pub fn asked(
    starts: &[u16],
    deadlines: &[u16],
    pairs: &[u16],
    lateness: bool,
) -> Result<(List, Precedes), (u8, usize)> {
    if starts.len() != deadlines.len() || pairs.len() % 2 == 1 {
        return Err((7, 0));
    }
    match starts.len() {
        0 if lateness => Err((14, 0)),
        0..=JOBS => sound(starts, deadlines, pairs),
        _ => Err((1, 0)),
    }
}

/// Whether two rows are a book made by requests: the book of the list that they spell, that is.
pub fn is_book(times: &[u16], before: &[u64]) -> bool {
    let n = times[0] as usize;
    if n > JOBS {
        return false;
    }
    let (starts, latest) = (&times[1..=n], &times[65..65 + n]);
    let pairs = (0..JOBS).flat_map(|a| (0..JOBS).map(move |b| (a, b)));
    let orders: Vec<(usize, usize)> = pairs.filter(|&(a, b)| before[b] >> a & 1 == 1).collect();
    let flat: Vec<u16> = orders.iter().flat_map(|&(a, b)| [a as u16, b as u16]).collect();
    let mut row = vec![0; n];
    let nothing_beyond = times[n + 1..65].iter().chain(&times[n + 65..]).all(|&time| time == 0);
    if !nothing_beyond || judge(starts, latest, &flat, &mut row) != Ok(0) {
        return false;
    }
    let list = List { starts: starts.to_vec(), deadlines: latest.to_vec(), orders: orders.clone() };
    let chains = list.precedes().concat().iter().filter(|&&precedes| precedes).count();
    row == latest && chains == orders.len()
}

/// 0 none, 1 room, 2 request, 3 plan, 4 form.
pub fn class(number: u8) -> u8 {
    match number {
        1 | 8 | 9 => 1,
        2 | 3 | 5 | 6 | 12 | 13 => 2,
        4 => 3,
        7 | 10 | 11 | 14 => 4,
        _ => 0,
    }
}

/// Tries every layout in which each job ends by a time made of its deadline, and shows those that are valid plans, as
/// the slot of each job, until one is what is looked for.
pub fn any_layout(list: &List, due: &dyn Fn(i32) -> i32, sought: &mut dyn FnMut(&[u16]) -> bool) -> bool {
    fn rest(
        list: &List,
        due: &dyn Fn(i32) -> i32,
        slots: &mut Vec<u16>,
        sought: &mut dyn FnMut(&[u16]) -> bool,
    ) -> bool {
        let i = slots.len();
        if i == list.size() {
            return sought(slots);
        }
        (list.starts[i] as i32..due(list.deadlines[i] as i32)).any(|slot| {
            let slot = slot as u16;
            let room = slots.iter().filter(|&&s| s == slot).count() < 2;
            slots.push(slot);
            let ordered = |&(a, b): &(usize, usize)| a.max(b) != i || slots[a] < slots[b];
            let found = room && list.orders.iter().all(ordered) && rest(list, due, slots, sought);
            slots.pop();
            found
        })
    }
    rest(list, due, &mut vec![], sought)
}

/// The least of the greatest ends minus deadlines, over every layout; no job ends before its start + 1.
pub fn least_lateness(list: &List) -> i32 {
    let late = |slot: u16, deadline: u16| slot as i32 + 1 - deadline as i32;
    let greatest = |slots: &[u16]| slots.iter().zip(&list.deadlines).map(|(&slot, &due)| late(slot, due)).max();
    let mut numbers = greatest(&list.starts).unwrap()..;
    let reached = |by: i32| any_layout(list, &|due| due + by, &mut |slots| greatest(slots) == Some(by));
    numbers.find(|&by| reached(by)).unwrap()
}

/// The least finishing time over every layout that meets the deadlines; none where there is no layout.
pub fn least_finish(list: &List) -> Option<usize> {
    let finish = |slots: &[u16]| slots.iter().max().map_or(0, |&last| last as i32 + 1);
    let reached = |by: i32| any_layout(list, &|due| due.min(by), &mut |slots| finish(slots) == by);
    let any = any_layout(list, &|due| due, &mut |_| true);
    any.then(|| (0..).find(|&by| reached(by)).unwrap() as usize)
}

/// Whether a plan is valid and every job ends by its time.
pub fn meets(list: &List, times: &[u16], slots: &[[u8; 2]]) -> bool {
    let slot_of = |i: usize| slots.iter().position(|row| row.contains(&(i as u8)));
    let n = list.size();
    let held = slots.concat().iter().filter(|&&j| j != 255).count();
    let fits = |i: usize| slot_of(i).is_some_and(|s| s >= list.starts[i] as usize && s + 1 <= times[i] as usize);
    held == n && (0..n).all(fits) && list.orders.iter().all(|&(a, b)| slot_of(a) < slot_of(b))
}
