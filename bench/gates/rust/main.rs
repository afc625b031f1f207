// What the gates are measured beside: a mutex that is locked, its number raised, and let go; and the three atomic
// steps of a call, on plain words, with nothing around them.
use std::hint::black_box;
use std::sync::Mutex;
use std::sync::atomic::{AtomicU64, Ordering::SeqCst};
use std::thread;
use std::time::Instant;

const CALLS: u64 = 1_000_000;
const TRIES: u64 = 7;

#[repr(align(128))]
struct Padded<T>(T);

fn lock_and_raise(mutex: &Padded<Mutex<u64>>) {
    for _ in 0..CALLS {
        let mut number = black_box(mutex).0.lock().unwrap();
        *number += 1;
    }
}

fn step(word: &Padded<AtomicU64>, commits: &Padded<AtomicU64>) {
    for _ in 0..CALLS {
        let word = &black_box(word).0;
        let _ = black_box(word.compare_exchange(0, 1, SeqCst, SeqCst));
        black_box(commits.0.fetch_add(1, SeqCst));
        word.store(0, SeqCst);
    }
}

// The least time of a call, where each thread makes its calls at a place of its own or all at one.
fn time<T: Sync>(threads: usize, places: &[T], calls: impl Fn(&T) + Sync) -> f64 {
    let mut least = f64::MAX;
    for _ in 0..TRIES {
        let start = Instant::now();
        thread::scope(|scope| {
            for n in 0..threads {
                let (place, calls) = (&places[n % places.len()], &calls);
                scope.spawn(move || calls(place));
            }
        });
        let per_call = start.elapsed().as_nanos() as f64 / (CALLS * threads as u64) as f64;
        least = least.min(per_call);
    }
    least
}

fn main() {
    let mutexes: Vec<_> = (0..4).map(|_| Padded(Mutex::new(0))).collect();
    println!("mutex, one thread               {:6.1} ns", time(1, &mutexes[..1], lock_and_raise));
    println!("mutex, four threads, one place  {:6.1} ns", time(4, &mutexes[..1], lock_and_raise));
    println!("mutex, four threads, four places{:6.1} ns", time(4, &mutexes, lock_and_raise));
    let words: Vec<_> = (0..4).map(|_| Padded(AtomicU64::new(0))).collect();
    let commits = Padded(AtomicU64::new(0));
    println!("steps, one thread               {:6.1} ns", time(1, &words[..1], |word| step(word, &commits)));
    println!("steps, four threads, four places{:6.1} ns", time(4, &words, |word| step(word, &commits)));
}
