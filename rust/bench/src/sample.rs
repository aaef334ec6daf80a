//! Records of one length, as many as go into a log, and the log of them.

pub struct Sample {
    pub record: Vec<u8>,
    pub count: usize,
    pub log: Vec<u8>,
}

impl Sample {
    pub fn new(length: usize, log_length: usize) -> Sample {
        let record = bytes(length);
        let mut log = vec![0; log_length];
        let (mut count, mut used) = (0, 0);
        while let Ok(mark) = mellansko::append(&mut log, used, &record) {
            count += 1;
            used = mark;
        }
        log.truncate(used);
        Sample { record, count, log }
    }
}

/// So many bytes, as bench/leveldb.cc has them too.
pub fn bytes(length: usize) -> Vec<u8> {
    (0..length).map(|i| (i * 7 + i / 251) as u8).collect()
}
