//! The longest journals there may be, in files: of 1,073,741,824 bytes. They are made block by block,
//! so that no test has one in memory.

use super::expect::written;
use super::files::Folder;
use reference::log::{fragment, FULL, LONGEST_LOG};
use std::fs::File;
use std::io::{BufWriter, Write};
use std::os::unix::fs::FileExt;
use std::path::{Path, PathBuf};
use std::process::{Child, Command, Stdio};

/// Where the records of each block of a sound one end. The first is the block's number. After the
/// second one of block 32,640 there is just room for the longest record, and after the third one of
/// the last block for one of 93 bytes.
pub const ENDS: [usize; 4] = [15, 31_865, 32_668, 32_768];

/// A journal in which all is sound. The first block and the last are equal, and no others.
pub fn sound(folder: &Folder, name: &str) -> PathBuf {
    let path = folder.join(name);
    let mut file = BufWriter::with_capacity(1 << 20, File::create(&path).expect("a file"));
    let rest: Vec<u8> = (1..4).flat_map(later_record).collect();
    for block in (1..32_768_u64).chain([1]) {
        file.write_all(&fragment(FULL, &block.to_le_bytes()))
            .and_then(|()| file.write_all(&rest))
            .expect("room on the disk");
    }
    file.flush().expect("room on the disk");
    assert_eq!(length(&path), LONGEST_LOG as u64);
    path
}

/// One that is in every block.
pub fn later_record(number: usize) -> Vec<u8> {
    let length = ENDS[number] - ENDS[number - 1] - 7;
    fragment(FULL, &vec![number as u8; length])
}

/// A journal of zeros, but for the longest record at its beginning, of 4,194,304 bytes, and one that
/// fills its last block.
pub fn blank(folder: &Folder, name: &str) -> PathBuf {
    let path = folder.zeros(name, LONGEST_LOG as u64);
    let file = File::options().write(true).open(&path).expect("the file");
    let (first, last) = (written(&[first_record()]), written(&[last_record()]));
    file.write_all_at(&first, 0).expect("room on the disk");
    let place = LONGEST_LOG - last.len();
    file.write_all_at(&last, place as u64)
        .expect("room on the disk");
    path
}

pub fn first_record() -> Vec<u8> {
    (0..4_194_304).map(|i| (i / 7) as u8).collect()
}

pub fn last_record() -> Vec<u8> {
    vec![7; 32_761]
}

pub fn length(path: &Path) -> u64 {
    path.metadata().expect("the file").len()
}

/// Cuts a file, or makes it longer by zeros.
pub fn set_length(path: &Path, length: u64) {
    let file = File::options().write(true).open(path).expect("the file");
    file.set_len(length).expect("a length");
}

/// A pipe that gives what the file has. The program that does is to be waited for.
pub fn piped(path: &Path) -> (Child, Stdio) {
    let mut cat = Command::new("cat");
    cat.arg(path).stdout(Stdio::piped()).stderr(Stdio::null());
    let mut child = cat.spawn().expect("cat");
    let pipe = child.stdout.take().expect("its output");
    (child, pipe.into())
}
