//! `mellansko mend` takes memory for both journals: up to the longest, and if there is not enough, it
//! says so.

#[macro_use]
mod common;

use common::expect::{long_log, written};
use common::files::{in_advice, Folder};
use common::longest::{blank, first_record, last_record, set_length};
use common::{ran, tool_within, Ran};
use std::fs;

#[test]
fn the_longest_journal_is_mended_and_one_byte_more_refused() {
    let folder = Folder::new("mend-longest");
    let bad = blank(&folder, "bad");
    let ran = run!("mend", &bad, folder.join("new"));
    assert_eq!((ran.status, ran.err.as_str()), (Some(1), ""));
    let lines = ran.lines();
    assert!(lines[0].ends_with("new: kept 2 records, in 4 227 982 bytes."));
    assert!(lines[1].ends_with(
        "bad: LOST: 1 069 513 849 of its 1 073 741 824 bytes, in blocks 129 to 32 767 of 32 768."
    ));
    let new = fs::read(folder.join("new")).expect("the new journal");
    assert!(new == written(&[first_record(), last_record()]));
    set_length(&bad, 1_073_741_825);
    let advice = format!(
        "head -c 1073741824 {} | mellansko verify -",
        in_advice(&bad)
    );
    run!("mend", &bad, folder.join("other")).failed(
        2,
        &[
            "bad: nothing was written: it is longer than 1 073 741 824 bytes",
            "refusal 1",
            &advice,
        ],
    );
    assert_eq!(folder.names(), ["bad", "new"]);
}

/// Mends what is in the file bad, by a tool that may take so many MiB in all.
fn mend_within(mebibytes: usize, folder: &Folder) -> Ran {
    let mut tool = tool_within(mebibytes);
    ran(tool.args(["mend", "bad", "new"]).current_dir(&**folder))
}

/// How many MiB it takes at least, where an empty journal is mended: what the tool takes of itself.
fn for_nothing(folder: &Folder) -> usize {
    folder.file("bad", b"");
    let enough = |&mebibytes: &usize| mend_within(mebibytes, folder).status == Some(0);
    let least = (8..200).find(enough).expect("enough");
    fs::remove_file(folder.join("new")).expect("the new journal");
    least
}

/// However much is missing, it is said, and nothing is written. A program that is refused memory
/// where it does not ask for it in words would be ended by a signal.
#[test]
fn a_journal_for_which_there_is_not_enough_memory_is_left_as_it_is() {
    let folder = Folder::new("mend-memory");
    let for_nothing = for_nothing(&folder);
    // 33 MiB: room that is doubled as it comes would be 64.
    folder.zeros("bad", 34_603_008);
    let says = "bad: nothing was written: there is not enough memory. Mending it takes \
                73 400 320 bytes: twice its length, and the longest record. ";
    let mut least = None;
    for mebibytes in for_nothing..for_nothing + 80 {
        let ran = mend_within(mebibytes, &folder);
        match least {
            None if ran.status == Some(2) => ran.failed(2, &[says]),
            _ => {
                assert_eq!((ran.status, ran.err.as_str()), (Some(1), ""));
                least.get_or_insert(mebibytes);
                fs::remove_file(folder.join("new")).expect("the new journal");
            }
        }
        assert_eq!(folder.names(), ["bad"], "{mebibytes} MiB");
    }
    // Twice its length more than that, and nothing besides.
    let least = least.expect("enough");
    let more = least - for_nothing;
    assert!((65..=68).contains(&more), "{more} MiB");

    // One of 16 MiB takes 34 less, and comes out whole.
    let log = long_log();
    folder.file("bad", &log);
    mend_within(least - 34, &folder).done();
    assert!(fs::read(folder.join("new")).expect("the new journal") == log);
}
