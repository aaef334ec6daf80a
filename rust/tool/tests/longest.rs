//! The longest journal is read, and added to, in less than 64 MiB; and one byte more is refused.

mod common;

use common::expect::blank_blocks;
use common::files::{in_advice, Folder};
use common::longest::{
    blank, first_record, last_record, later_record, length, piped, set_length, sound,
};
use common::{fed, ran, tool_within, Ran};
use reference::log::{BLOCK, LONGEST_LOG};
use std::fs::{self, File};
use std::os::unix::fs::FileExt;
use std::path::Path;
use std::process::Command;

/// The tool, whose memory is held to that: all of it, and so what is resident.
fn tool() -> Command {
    tool_within(64)
}

/// Runs the tool on a file by its name, or on what comes from it over a pipe.
fn on(path: &Path, over_pipe: bool, words: &[&str]) -> Ran {
    let mut command = tool();
    let named = words.iter().map(|&word| match word {
        "FILE" if over_pipe => "-".into(),
        "FILE" => path.as_os_str().to_owned(),
        _ => word.into(),
    });
    command.args(named);
    if !over_pipe {
        return ran(&mut command);
    }
    let (mut from, pipe) = piped(path);
    let ran = ran(command.stdin(pipe));
    // So that nobody but it holds the pipe.
    drop(command);
    from.wait().expect("its end");
    ran
}

/// The bytes that a file has from a place on.
fn tail(path: &Path, place: u64) -> Vec<u8> {
    let mut bytes = vec![0; (length(path) - place) as usize];
    let file = File::open(path).expect("the file");
    file.read_exact_at(&mut bytes, place).expect("its end");
    bytes
}

#[test]
fn a_sound_journal_is_judged_and_grows_to_the_last_byte() {
    let folder = Folder::new("longest-sound");
    let file = sound(&folder, "race.log");
    let verified = ran(tool().arg("verify").arg(&file));
    let answer = "race.log: no damage found in its 1 073 741 824 bytes, 32 768 blocks. It has \
                  131 072 records; the last is record 131 072, bytes 1 073 741 724 to \
                  1 073 741 824.\nWARNING: blocks 1 and 32 768 are equal, byte for byte. ";
    assert!(
        verified.done().text().contains(answer),
        "{}",
        verified.text()
    );
    full(&folder, &file);
    grows_to_the_last_byte(&file);
    grows_by_the_longest_record(&file);
}

/// Not even an empty record has room, and what is advised then begins another journal.
fn full(folder: &Folder, sound: &Path) {
    let file = &folder.join("two words.log");
    fs::rename(sound, file).expect("another name");
    let last = tail(file, 1_073_709_056);
    let mut append = tool();
    append.env("MELLANSKO", env!("CARGO_BIN_EXE_mellansko"));
    let ran = fed(append.arg("append").arg(file), b"");
    ran.failed(
        2,
        &[
            "words.log: nothing was appended: with the record the journal would be longer than \
             1 073 741 824 bytes (refusal 4). Begin another: ",
        ],
    );
    assert!(tail(file, 1_073_709_056) == last);
    let (_, another) = ran.err.split_once("Begin another: ").expect("advice");
    let another = another.trim_end();
    let name = in_advice(&folder.join("two words-2.log"));
    assert!(another.ends_with(&format!(" append --new {name}")));
    fed(Command::new("sh").args(["-c", another]), b"new").done();
    assert_eq!(folder.names(), ["two words-2.log", "two words.log"]);
    fs::rename(file, sound).expect("its old name");
}

fn grows_to_the_last_byte(file: &Path) {
    let last = tail(file, 1_073_709_056);
    set_length(file, 1_073_741_724);
    fed(tool().arg("append").arg(file), &[3; 94]).failed(2, &["nothing was appended", "refusal 4"]);
    assert_eq!(length(file), 1_073_741_724);
    let ran = fed(tool().arg("append").arg(file), &[3; 93]);
    let says = "race.log: record 131 072 appended, of 93 bytes, as bytes 1 073 741 724 to \
                1 073 741 824.\n";
    assert!(ran.done().text().ends_with(says), "{}", ran.text());
    // The record that was there before.
    assert_eq!(later_record(3).len(), 100);
    assert!(tail(file, 1_073_709_056) == last);
}

/// Of 129 fragments, up to the last byte.
fn grows_by_the_longest_record(file: &Path) {
    const MARK: usize = 1_069_546_617;
    set_length(file, MARK as u64);
    let before = tail(file, (MARK / BLOCK * BLOCK) as u64);
    let ran = fed(tool().arg("append").arg(file), &first_record());
    let says = "race.log: record 130 559 appended, of 4 194 304 bytes, as bytes 1 069 546 617 to \
                1 073 741 824.\n";
    assert!(ran.done().text().ends_with(says), "{}", ran.text());
    assert_eq!(length(file), LONGEST_LOG as u64);
    // As the reference adds it to the block that it begins in.
    let mut block = before;
    common::expect::add(&mut block, &first_record());
    assert!(tail(file, (MARK / BLOCK * BLOCK) as u64) == block);
}

/// What `dump` lists of a blank journal, up to the end.
fn dumped() -> String {
    let blocks = blank_blocks(129..32_767);
    let after_first = "S 4195207 4227072 2\n";
    format!("R 0 4195207 4194304\n{after_first}{blocks}R 1073709056 1073741824 32761\n")
}

const VERDICT: &str =
    "IN DOUBT: 1 069 513 849 of its 1 073 741 824 bytes, in blocks 129 to 32 767 \
                       of 32 768. It has 2 readable records; the last is record 2, bytes \
                       1 073 709 056 to 1 073 741 824.\n";

#[test]
fn a_blank_journal_is_read_to_the_last_byte() {
    let folder = Folder::new("longest-blank");
    let file = blank(&folder, "race.log");
    for over_pipe in [false, true] {
        let verified = on(&file, over_pipe, &["verify", "FILE"]);
        assert_eq!((verified.status, verified.err.as_str()), (Some(1), ""));
        assert!(verified.text().contains(VERDICT), "{}", verified.text());
        assert!(verified.text().contains("and 32 619 more ranges"));
        let listed = on(&file, over_pipe, &["verify", "--all", "FILE"]);
        let points = listed.text().matches("\n  - bytes ").count();
        assert_eq!((listed.status, points), (Some(1), 32_639));
        let dump = on(&file, over_pipe, &["dump", "FILE"]);
        assert_eq!((dump.status, dump.err.as_str()), (Some(1), ""));
        assert!(dump.text() == dumped() + "E clean\n");
        for (number, record) in [("1", first_record()), ("2", last_record())] {
            let cat = on(&file, over_pipe, &["cat", "FILE", number]);
            cat.complained(1, &["1 069 513 849 bytes are in doubt"]);
            assert!(cat.out == record);
        }
        maps(&file, over_pipe);
    }
}

/// In 16 rows, and in as many as there can be.
fn maps(file: &Path, over_pipe: bool) {
    for (words, rows, cell) in [
        (&["map", "FILE"][..], 16, "64 blocks, 2 097 152 bytes"),
        (
            &["map", "--blocks", "1", "FILE"],
            1_024,
            "one block, 32 768 bytes",
        ),
    ] {
        let map = on(file, over_pipe, words);
        assert_eq!((map.status, map.err.as_str()), (Some(1), ""));
        let lines = map.lines();
        assert!(format!("{}\n", lines[0]).ends_with(VERDICT));
        assert_eq!(lines.len(), 1 + rows + 4);
        assert_eq!(lines[lines.len() - 1], format!("A cell is {cell}."));
        assert!(lines[1].starts_with("     block 1  R-"), "{}", lines[1]);
        assert!(lines[rows].starts_with("block 3"), "{}", lines[rows]);
        let last = if rows == 1_024 { " D R" } else { " D D" };
        assert!(lines[rows].ends_with(last), "{}", lines[rows]);
    }
}

/// How long a pipe is shows when it has come. Of a file it is looked up; `files.rs` has that.
#[test]
fn of_a_pipe_one_byte_too_long_nothing_is_handed_out_but_what_was_certain() {
    let folder = Folder::new("longest-too-long");
    let file = blank(&folder, "race.log");
    set_length(&file, 1_073_741_825);
    for words in [
        &["verify", "FILE"][..],
        &["map", "FILE"],
        &["cat", "FILE", "1"],
    ] {
        on(&file, true, words).failed(
            2,
            &[
                "standard input: it is longer than 1 073 741 824 bytes",
                "refusal 1",
                "head -c 1073741824 - | mellansko verify -",
            ],
        );
    }
    let dump = on(&file, true, &["dump", "FILE"]);
    assert!(dump.text() == dumped() + "X 1\n");
    dump.complained(
        2,
        &["standard input: it is longer than 1 073 741 824 bytes"],
    );
    dump.warned(&["of its beginning", "nothing after it was judged"]);
}
