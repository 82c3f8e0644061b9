//! The workloads, and how their time is taken.

use crate::hashers::Hasher;
use std::time::{Duration, Instant};

/// How often each workload is run by each implementation; the best time counts.
const RUNS: usize = 200;

/// Bytes that are hashed in pieces of `size`.
pub struct Workload {
    pub name: &'static str,
    data: Vec<u8>,
    size: usize,
}

impl Workload {
    pub fn words() -> Self {
        Workload {
            name: "words of 32 bytes",
            data: noise(32 * 4096),
            size: 32,
        }
    }

    pub fn blocks() -> Self {
        Workload {
            name: "blocks of 64 KiB",
            data: noise(16 * 65536),
            size: 65536,
        }
    }

    pub fn bytes(&self) -> usize {
        self.data.len()
    }

    pub fn messages(&self) -> usize {
        self.data.len() / self.size
    }

    /// Hashes all pieces: the time, and the digests combined, so that each has to be computed.
    fn run(&self, hash: fn(&[u8]) -> [u8; 32]) -> (Duration, [u8; 32]) {
        let mut all = [0; 32];
        let start = Instant::now();
        for message in self.data.chunks(self.size) {
            for (sum, byte) in all.iter_mut().zip(hash(message)) {
                *sum ^= byte;
            }
        }
        (start.elapsed(), all)
    }
}

/// The best time of each implementation. They take turns, so that a slow spell of the machine meets them all.
pub fn best_times<const N: usize>(workload: &Workload, hashers: &[Hasher; N]) -> [Duration; N] {
    let (_, expected) = workload.run(hashers[0].hash);
    let mut best = [Duration::MAX; N];
    for _ in 0..RUNS {
        for (best, hasher) in best.iter_mut().zip(hashers) {
            let (time, digests) = workload.run(hasher.hash);
            assert_eq!(digests, expected, "{}", hasher.name);
            *best = time.min(*best);
        }
    }
    best
}

/// Bytes of a fixed pseudo-random sequence: xorshift64.
pub fn noise(length: usize) -> Vec<u8> {
    let mut x = 0x9e37_79b9_7f4a_7c15_u64;
    let mut next = || {
        x ^= x << 13;
        x ^= x >> 7;
        x ^= x << 17;
        (x >> 56) as u8
    };
    (0..length).map(|_| next()).collect()
}
