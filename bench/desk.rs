// The same machine behind std's Mutex: so many threads, so many turns each. It prints where the machine ends.
use std::sync::Mutex;
use std::{env, thread};

fn step(state: &mut u64, added: u64) -> u64 {
    let mut next = state.wrapping_add(added | 1);
    for _ in 0..80u32 {
        next ^= next << 13;
        next ^= next >> 7;
        next ^= next << 17;
    }
    *state = next;
    next
}

fn main() {
    let mut words = env::args().skip(1).map(|word| word.parse::<u64>().unwrap());
    let threads = words.next().unwrap();
    let turns = words.next().unwrap();
    let machine = Mutex::new(0u64);
    thread::scope(|scope| {
        for _ in 0..threads {
            scope.spawn(|| {
                for turn in 0..turns {
                    std::hint::black_box(step(&mut machine.lock().unwrap(), turn));
                }
            });
        }
    });
    println!("{}", machine.into_inner().unwrap());
}
