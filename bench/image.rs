// Looks for records in a full image of 600 slots: the proved scan beside the same loop in plain Rust.
use std::hint::black_box;
use std::time::Instant;

const SLOT_LEN: usize = 97;
const MAX_SLOTS: usize = 600;
const IDENTIFIER_LEN: usize = 9;
const PASSES: usize = 15;
const TURNS: usize = 40;

unsafe extern "C" {
    // of the crate `exports`: a slice is a pointer and then a length
    fn limedistaff_image_find(memory: *const u8, length: usize, number: u16) -> usize;
}

fn proved(memory: &[u8], number: u16) -> usize {
    unsafe { limedistaff_image_find(memory.as_ptr(), memory.len(), number) }
}

// The identifier of one number: its depth, the number, and zeros.
fn identifier(number: u16) -> [u8; IDENTIFIER_LEN] {
    let mut bytes = [0; IDENTIFIER_LEN];
    bytes[0] = 1;
    bytes[1..3].copy_from_slice(&number.to_be_bytes());
    bytes
}

// Never inlined, as a call through the C boundary is not.
#[inline(never)]
fn plain(memory: &[u8], number: u16) -> usize {
    let key = identifier(number);
    let slots = (memory.len() / SLOT_LEN).min(MAX_SLOTS);
    for i in 0..slots {
        let slot = &memory[i * SLOT_LEN..(i + 1) * SLOT_LEN];
        if slot[0] == 1 && slot[1..1 + IDENTIFIER_LEN] == key {
            return i;
        }
    }
    MAX_SLOTS
}

// A full image: slot i has the record of the chain of number i, all other fields counting up.
fn full() -> Vec<u8> {
    let mut memory = vec![0; MAX_SLOTS * SLOT_LEN];
    for (i, slot) in memory.chunks_exact_mut(SLOT_LEN).enumerate() {
        for (k, byte) in slot.iter_mut().enumerate() {
            *byte = (i + k) as u8;
        }
        slot[0] = 1;
        slot[1..1 + IDENTIFIER_LEN].copy_from_slice(&identifier(i as u16));
    }
    memory
}

type Find = fn(&[u8], u16) -> usize;

// Nanoseconds of one pass over all numbers, TURNS times.
fn pass(find: Find, memory: &[u8], numbers: &[u16]) -> f64 {
    let start = Instant::now();
    let mut sum = 0;
    for _ in 0..TURNS {
        for number in numbers {
            sum += find(black_box(memory), *number);
        }
    }
    black_box(sum);
    start.elapsed().as_nanos() as f64
}

// The best of the passes of each, which take turns.
fn measure(memory: &[u8], numbers: &[u16]) -> (f64, f64) {
    let (mut best_proved, mut best_plain) = (f64::MAX, f64::MAX);
    for _ in 0..PASSES {
        best_proved = best_proved.min(pass(proved, memory, numbers));
        best_plain = best_plain.min(pass(plain, memory, numbers));
    }
    (best_proved, best_plain)
}

fn report(what: &str, memory: &[u8], numbers: &[u16]) {
    let rows: usize = numbers.iter().map(|n| (*n as usize + 1).min(MAX_SLOTS)).sum();
    let looked = (rows * TURNS) as f64;
    let (proved, plain) = measure(memory, numbers);
    println!(
        "{what}: proved {:.1} million rows a second, plain Rust {:.1}, ratio {:.2}",
        looked * 1e3 / proved,
        looked * 1e3 / plain,
        plain / proved
    );
}

fn main() {
    let memory = full();
    for number in 0..=u16::MAX {
        assert_eq!(proved(&memory, number), plain(&memory, number), "number {number}");
    }
    for length in 0..SLOT_LEN * 3 {
        assert_eq!(proved(&memory[..length], 1), plain(&memory[..length], 1), "length {length}");
    }
    println!("the places of 65,536 numbers, and of one number in 291 shorter memories, are those of plain Rust");
    // each number once, in an order without runs
    let held: Vec<u16> = (0..MAX_SLOTS).map(|i| (i * 7 % MAX_SLOTS) as u16).collect();
    let missing: Vec<u16> = (0..MAX_SLOTS).map(|i| (MAX_SLOTS + i) as u16).collect();
    report("each of 600 records once", &memory, &held);
    report("600 chains without a record", &memory, &missing);
}
