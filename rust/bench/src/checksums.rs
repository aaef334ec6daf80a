//! The proved checksum beside an ordinary one.

use crate::byte_table;
use crate::sample;
use crate::turns::{best, rate, timed, Way};
use std::hint::black_box;

pub fn print() {
    println!("checksum: proved against an ordinary Rust program, each with a table of 256");
    println!(
        "{:>10} {:>12} {:>12} {:>6}",
        "bytes", "proved MB/s", "plain MB/s", "ratio"
    );
    for size in [100, 1 << 10, 32 << 10, 1 << 20] {
        let bytes = sample::bytes(size);
        let (proved, plain) = rates(&bytes);
        println!(
            "{size:>10} {proved:>12.1} {plain:>12.1} {:>6.2}",
            proved / plain
        );
    }
}

fn rates(bytes: &[u8]) -> (f64, f64) {
    assert_eq!(mellansko::crc32c(0, bytes), byte_table::crc32c(bytes));
    let calls = (1 << 22) / bytes.len();
    let way = |checksum: fn(&[u8]) -> u32| -> Way {
        Box::new(timed(move || {
            for _ in 0..calls {
                black_box(checksum(black_box(bytes)));
            }
        }))
    };
    let mut ways = [
        way(|bytes| mellansko::crc32c(0, bytes)),
        way(byte_table::crc32c),
    ];
    let times = best(25, &mut ways);
    (
        rate(calls * bytes.len(), times[0]),
        rate(calls * bytes.len(), times[1]),
    )
}
