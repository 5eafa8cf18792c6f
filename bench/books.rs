//! Lookups in full books: the proved code beside the same loop in plain Rust, in one process.
//!
//! Each function fills books with rows, looks up a number of them, from place to place in steps of one stride, and answers
//! the sum of what it found. The sums must agree. The time of a call with no lookup, which only fills, is taken off.
use std::hint::black_box;
use std::time::Instant;

// The functions of the crate `exports_books`.
unsafe extern "C" {
    safe fn limedistaff_tables_records(lookups: u32, stride: u16) -> u64;
    safe fn limedistaff_tables_outgoing(lookups: u32, stride: u16) -> u64;
}

const TABLE_ROWS: u16 = 1024;
const LOOKUPS: u32 = 1 << 16;
// Odd, so that the places of a table are all visited, and by no even step.
const STRIDE: u16 = 389;
const PASSES: usize = 15;

#[derive(Clone, Copy, PartialEq)]
struct Identifier {
    depth: u8,
    numbers: [u16; 4],
}

impl Identifier {
    fn root(number: u16) -> Self {
        Identifier { depth: 1, numbers: [number, 0, 0, 0] }
    }
}

#[derive(Clone, Copy)]
struct Record {
    identifier: Identifier,
    #[allow(dead_code)]
    owner: u32,
    next: u16,
    #[allow(dead_code)]
    last: [u8; 32],
    #[allow(dead_code)]
    a: i64,
    #[allow(dead_code)]
    b: i64,
    #[allow(dead_code)]
    vote: Option<[u8; 32]>,
}

#[derive(Clone, Copy, PartialEq)]
struct Name {
    sender: Identifier,
    height: u16,
    index: u8,
}

#[derive(Clone, Copy)]
enum Load {
    Opening(u32),
    #[allow(dead_code)]
    Sent(u8, i64),
}

#[derive(Clone, Copy)]
struct Outgoing {
    name: Name,
    #[allow(dead_code)]
    target: Identifier,
    load: Load,
}

/// A row that is looked for by a key, and the number that a lookup adds to the sum.
trait Row: Copy {
    type Key: PartialEq;
    fn of_place(place: u16) -> Self;
    fn key_of_place(place: u16) -> Self::Key;
    fn key(&self) -> &Self::Key;
    fn number(&self) -> u64;
}

impl Row for Record {
    type Key = Identifier;
    fn of_place(place: u16) -> Self {
        Record { identifier: Self::key_of_place(place), owner: 0, next: place, last: [0; 32], a: 0, b: 0, vote: None }
    }
    fn key_of_place(place: u16) -> Identifier {
        Identifier::root(place)
    }
    fn key(&self) -> &Identifier {
        &self.identifier
    }
    fn number(&self) -> u64 {
        self.next.into()
    }
}

impl Row for Outgoing {
    type Key = Name;
    fn of_place(place: u16) -> Self {
        Outgoing { name: Self::key_of_place(place), target: Identifier::root(1), load: Load::Opening(place.into()) }
    }
    fn key_of_place(place: u16) -> Name {
        Name { sender: Identifier::root(0), height: place, index: 0 }
    }
    fn key(&self) -> &Name {
        &self.name
    }
    fn number(&self) -> u64 {
        match self.load {
            Load::Opening(key) => key.into(),
            Load::Sent(..) => 0,
        }
    }
}

fn find<R: Row>(rows: &[R], key: &R::Key) -> Option<R> {
    rows.iter().find(|row| row.key() == key).copied()
}

fn filled<R: Row>(count: u16) -> Vec<R> {
    let mut rows = Vec::with_capacity(count.into());
    for place in 0..count {
        if find(&rows, &R::key_of_place(place)).is_none() {
            rows.push(R::of_place(place));
        }
    }
    rows
}

fn places(rows: u16, lookups: u32, stride: u16) -> impl Iterator<Item = u16> {
    let after = move |place: &u16| Some(((u32::from(*place) + u32::from(stride)) % u32::from(rows)) as u16);
    std::iter::successors(Some(0), after).take(lookups as usize)
}

#[inline(never)]
fn plain<R: Row>(count: u16, lookups: u32, stride: u16) -> u64 {
    let rows = filled::<R>(count);
    let found = places(count, lookups, stride).filter_map(|place| find(&rows, &R::key_of_place(place)));
    found.fold(0, |sum, row| sum.wrapping_add(row.number()))
}

/// How many rows the lookups look at: those up to the one that is found.
fn rows_looked_at(count: u16, lookups: u32, stride: u16) -> u64 {
    places(count, lookups, stride).map(|place| u64::from(place) + 1).sum()
}

type Sum<'a> = &'a dyn Fn(u32, u16) -> u64;

fn seconds(sum: Sum, lookups: u32) -> f64 {
    let start = Instant::now();
    black_box(sum(black_box(lookups), black_box(STRIDE)));
    start.elapsed().as_secs_f64()
}

/// The best of the passes: seconds of the lookups alone. The functions take turns.
fn measure(sums: [Sum; 2]) -> [f64; 2] {
    let (mut whole, mut filling) = ([f64::MAX; 2], [f64::MAX; 2]);
    for _ in 0..PASSES {
        for (k, sum) in sums.iter().enumerate() {
            whole[k] = whole[k].min(seconds(sum, LOOKUPS));
            filling[k] = filling[k].min(seconds(sum, 0));
        }
    }
    [whole[0] - filling[0], whole[1] - filling[1]]
}

fn compare(what: &str, count: u16, proved: Sum, plain: Sum) {
    for (lookups, stride) in [(0, 1), (1, 0), (1000, 1), (1000, 7), (LOOKUPS, STRIDE)] {
        let (found, wanted) = (proved(lookups, stride), plain(lookups, stride));
        assert_eq!(found, wanted, "{what}: the sums of {lookups} lookups by {stride} differ");
    }
    println!("{what:24} the sums agree");
    let looked_at = rows_looked_at(count, LOOKUPS, STRIDE) as f64;
    let times = measure([proved, plain]);
    for (name, time) in ["proved", "plain Rust"].iter().zip(times) {
        println!("{what:24} {name:10} {:8.1} ns a lookup {:8.1} million rows/s", time * 1e9 / f64::from(LOOKUPS), looked_at / time / 1e6);
    }
    println!("{what:24} proved / plain Rust {:.2}", times[1] / times[0]);
}

fn main() {
    println!("input: {TABLE_ROWS} rows in a table, {LOOKUPS} lookups of rows that are there, each {STRIDE} places on, with wrapping");
    println!("best of {PASSES} passes, the functions in turn; the filling of the books is taken off");
    compare("tables: record", TABLE_ROWS, &|n, s| limedistaff_tables_records(n, s), &|n, s| plain::<Record>(TABLE_ROWS, n, s));
    compare("tables: outgoing row", TABLE_ROWS, &|n, s| limedistaff_tables_outgoing(n, s), &|n, s| plain::<Outgoing>(TABLE_ROWS, n, s));
}
