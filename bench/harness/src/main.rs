//! Compares three implementations of SHA-256 on many inputs, then measures them on two workloads.

mod hashers;
mod measure;

use hashers::{Hasher, HASHERS};
use measure::{best_times, Workload};

fn main() {
    println!("{}", hashers::openssl_says());
    println!("{} inputs: all digests agree\n", agree());
    for workload in [Workload::words(), Workload::blocks()] {
        report(&workload);
    }
}

/// Hashes inputs of many lengths by every implementation, and tells how many inputs there were.
fn agree() -> usize {
    let lengths = (0..=300).chain([1000, 4095, 4096, 4097, 65536, 1_000_003]);
    let mut count = 0;
    for length in lengths {
        let message = measure::noise(length);
        let [first, others @ ..] = &HASHERS;
        let digest = (first.hash)(&message);
        for other in others {
            let second = (other.hash)(&message);
            assert_eq!(
                digest, second,
                "{} and {} at {length} bytes",
                first.name, other.name
            );
        }
        count += 1;
    }
    count
}

/// Prints the times of a workload, and each as a ratio to ours: above 1 the other is slower.
fn report(workload: &Workload) {
    let times = best_times(workload, &HASHERS);
    let ours = times[0];
    println!("{}", workload.name);
    for (Hasher { name, .. }, time) in HASHERS.iter().zip(times) {
        let ns = time.as_secs_f64() * 1e9 / workload.messages() as f64;
        let speed = workload.bytes() as f64 / time.as_secs_f64() / 1e6;
        let ratio = time.as_secs_f64() / ours.as_secs_f64();
        println!("  {name:<22} {ns:>10.1} ns each {speed:>8.1} MB/s   time / ours {ratio:.3}");
    }
    println!();
}
