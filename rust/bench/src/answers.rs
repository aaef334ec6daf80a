//! This program as the other one that is asked (other.rs). It answers as bench/leveldb.cc does, with
//! the calls of the archive that it was linked with.

use crate::logs::{proved_append, proved_next, LENGTHS, LIMIT, LOG};
use crate::sample::Sample;
use crate::turns::timed;
use std::io::{stdin, stdout, Write};
use std::time::Duration;

pub fn give() {
    let (mut log, mut buffer) = (vec![0; LOG], vec![0; LIMIT]);
    let mut sample = Sample::new(LENGTHS[0], LOG);
    for line in stdin().lines() {
        let line = line.expect("a question");
        let words: Vec<&str> = line.split(' ').collect();
        let [command, length, count] = words[..] else {
            panic!("no question: {line}");
        };
        if length != sample.record.len().to_string() {
            sample = Sample::new(length.parse().expect("a length"), LOG);
        }
        assert_eq!(count, sample.count.to_string(), "records of {length} bytes");
        match command {
            "log" => {
                println!("{}", sample.log.len());
                stdout().write_all(&sample.log).expect("a reader of it");
            }
            "write" => say(timed(|| sample.write(&mut log, proved_append))),
            "read" => say(timed(|| sample.read(&mut buffer, proved_next))),
            _ => panic!("no command: {command}"),
        }
        stdout().flush().expect("a reader of it");
    }
}

fn say(mut way: impl FnMut() -> Duration) {
    println!("{}", way().as_nanos());
}
