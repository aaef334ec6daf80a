//! include/mellansko.h: its figures, names, texts and warnings.

use crate::folder::{
    root, text, Folder, Way, C, CLANG, CLANG_CPP, CPP, OLD_CPP, PLAIN_CPP, SANITIZED,
};
use crate::{reason_text, refusal_text};
use mellansko::{Condition, Reason};

/// Runs a program that prints the lines of it that do not hold.
fn all_holds(name: &str) {
    let folder = Folder::new(name);
    let source = root().join(format!("rust/mellansko/tests/c/{name}.c"));
    for way in folder.there(&[C, CLANG, SANITIZED]) {
        assert_eq!(folder.run(way, &source), "", "{way:?}");
    }
}

#[test]
fn it_says_what_the_calls_do() {
    all_holds("header");
}

/// So many bytes are accepted, and not one more.
#[test]
fn its_figures_are_those_of_the_calls() {
    all_holds("figures");
}

/// The lines that it shows are among those that the test above runs.
#[test]
fn its_example_of_a_checksum_is_run() {
    let [header, source] = ["include/mellansko.h", "rust/mellansko/tests/c/header.c"].map(text);
    let shown = header
        .lines()
        .filter_map(|line| line.strip_prefix(" *   uint32_t "));
    let lines: Vec<String> = shown.map(|line| format!("    uint32_t {line}\n")).collect();
    assert_eq!(lines.len(), 2, "{lines:?}");
    assert!(source.contains(&lines.concat()), "{lines:?}");
}

/// It includes what it needs, can be included twice, and C++ takes it too.
#[test]
fn it_stands_alone() {
    let folder = Folder::new("alone");
    let source = "#include \"mellansko.h\"\n#include \"mellansko.h\"\n";
    for way in folder.there(&[C, CLANG, CPP, CLANG_CPP, OLD_CPP, PLAIN_CPP]) {
        compiles(&folder, way, source);
    }
}

#[test]
fn its_texts_are_those_of_the_rust_crate() {
    let folder = Folder::new("texts");
    let source = folder.file(
        "texts.c",
        "#include <stdio.h>\n#include \"mellansko.h\"\nint main(void) {\n\
         for (int i = 0; i <= 10; i++) puts(mellansko_reason_text((uint64_t)i));\n\
         for (int i = 0; i <= 21; i++) puts(mellansko_refusal_text((uint64_t)i));\n\
         puts(mellansko_reason_text(UINT64_MAX));\n\
         puts(mellansko_refusal_text(((uint64_t)1 << 32) + 1));\nreturn 0;\n}\n",
    );
    let [none, no] = [
        "a number that is no reason's",
        "a number that is no refusal's",
    ];
    assert_eq!((Reason::ALL.len(), Condition::ALL.len()), (9, 7));
    let mut lines = vec![none.to_string()];
    lines.extend((1..=9).map(reason_text));
    lines.push(none.to_string());
    lines.extend((0..=21).map(|number| match number {
        1..=6 | 20 => refusal_text(number),
        _ => no.to_string(),
    }));
    lines.extend([none, no].map(String::from));
    for way in folder.there(&[C, CPP]) {
        let printed = folder.run(way, &source);
        assert_eq!(printed.lines().collect::<Vec<_>>(), lines, "{way:?}");
    }
}

/// Whether a reason is a loss; a number that is no reason's is one, to be on the safe side.
#[test]
fn its_losses_are_those_of_the_rust_crate() {
    let folder = Folder::new("losses");
    let source = folder.file(
        "losses.c",
        "#include <stdio.h>\n#include \"mellansko.h\"\nint main(void) {\n\
         for (int i = 0; i <= 20; i++) printf(\"%d\", mellansko_reason_is_loss((uint64_t)i));\n\
         printf(\"%d\", mellansko_reason_is_loss(((uint64_t)1 << 32) + 8));\n\
         printf(\"%d\", mellansko_reason_is_loss(UINT64_MAX));\nreturn 0;\n}\n",
    );
    let is_loss = |number: u8| {
        let mut all = Reason::ALL.iter();
        let reason = all.find(|reason| reason.number() == number);
        reason.is_none_or(|reason| reason.is_loss())
    };
    let known = (0..=20).map(is_loss).chain([true, true]);
    let digits: String = known.map(|loss| if loss { '1' } else { '0' }).collect();
    for way in folder.there(&[C, CLANG, CPP]) {
        assert_eq!(folder.run(way, &source), digits, "{way:?}");
    }
}

#[test]
fn its_version_is_that_of_the_rust_crate() {
    let folder = Folder::new("version");
    let source = folder.file(
        "version.c",
        "#include <stdio.h>\n#include \"mellansko.h\"\nint main(void) {\n\
         printf(\"%s %d.%d.%d\", MELLANSKO_VERSION, MELLANSKO_VERSION_MAJOR,\n\
         MELLANSKO_VERSION_MINOR, MELLANSKO_VERSION_PATCH);\nreturn 0;\n}\n",
    );
    let version = env!("CARGO_PKG_VERSION");
    for way in folder.there(&[C]) {
        assert_eq!(folder.run(way, &source), format!("{version} {version}"));
    }
}

/// The calls as they are to be made, with a result that is used, and no NULL.
const CALLS: [&str; 8] = [
    "mellansko_append(log, 9, 0, record, 2, &answer)",
    "mellansko_next(log, 9, 0, 2, record, 2, &answer)",
    "mellansko_mend(log, 9, block, 9, 2, record, 2, &answer)",
    "mellansko_feed_begin(2, &feed, &answer)",
    "mellansko_feed_take(&feed, block, log, 9, &answer)",
    "mellansko_feed_next(&feed, block, record, 2, &answer)",
    "mellansko_crc32c(0, record, 2)",
    "mellansko_mask(7)",
];

fn program(statement: &str) -> String {
    format!(
        "#include \"mellansko.h\"\nint used(uint64_t result);\nint calls(void);\n\
         int calls(void)\n{{\nstatic uint8_t log[9], record[2], block[MELLANSKO_BLOCK];\n\
         static struct mellansko_answer answer;\nstatic struct mellansko_feed feed;\n\
         (void)log, (void)record, (void)block, (void)answer, (void)feed;\n\
         {statement};\nreturn 0;\n}}\n"
    )
}

#[test]
fn a_dropped_answer_is_warned_of() {
    let folder = Folder::new("dropped");
    for way in folder.there(&[C, CLANG, CPP, CLANG_CPP, PLAIN_CPP]) {
        for call in CALLS {
            compiles(&folder, way, &program(&format!("used({call})")));
            fails(&folder, way, &program(call), "unused");
        }
    }
}

#[test]
fn a_pointer_that_is_null_is_warned_of() {
    let folder = Folder::new("null");
    for way in folder.there(&[C, CLANG, CPP, CLANG_CPP]) {
        for call in [
            "mellansko_append(NULL, 9, 0, record, 2, &answer)",
            "mellansko_append(log, 9, 0, NULL, 2, &answer)",
            "mellansko_append(log, 9, 0, record, 2, NULL)",
            "mellansko_next(NULL, 9, 0, 2, record, 2, &answer)",
            "mellansko_next(log, 9, 0, 2, NULL, 2, &answer)",
            "mellansko_next(log, 9, 0, 2, record, 2, NULL)",
            "mellansko_mend(NULL, 9, block, 9, 2, record, 2, &answer)",
            "mellansko_mend(log, 9, NULL, 9, 2, record, 2, &answer)",
            "mellansko_mend(log, 9, block, 9, 2, NULL, 2, &answer)",
            "mellansko_mend(log, 9, block, 9, 2, record, 2, NULL)",
            "mellansko_feed_begin(2, NULL, &answer)",
            "mellansko_feed_begin(2, &feed, NULL)",
            "mellansko_feed_take(NULL, block, log, 9, &answer)",
            "mellansko_feed_take(&feed, NULL, log, 9, &answer)",
            "mellansko_feed_take(&feed, block, NULL, 9, &answer)",
            "mellansko_feed_take(&feed, block, log, 9, NULL)",
            "mellansko_feed_next(NULL, block, record, 2, &answer)",
            "mellansko_feed_next(&feed, NULL, record, 2, &answer)",
            "mellansko_feed_next(&feed, block, NULL, 2, &answer)",
            "mellansko_feed_next(&feed, block, record, 2, NULL)",
            "mellansko_crc32c(0, NULL, 2)",
            "mellansko_crc32c(0, NULL, 0)",
        ] {
            fails(&folder, way, &program(&format!("used({call})")), "nonnull");
        }
        fails(
            &folder,
            way,
            &program("mellansko_feed_end(NULL)"),
            "nonnull",
        );
    }
}

/// A program that does not say what came before, since the call once took bytes alone, learns of it
/// from every compiler, also one that is not told to refuse what it warns of.
#[test]
fn a_checksum_of_bytes_alone_does_not_compile() {
    let folder = Folder::new("alone-summed");
    let ways = [C, CLANG, SANITIZED, CPP, CLANG_CPP, OLD_CPP, PLAIN_CPP];
    for way in folder.there(&ways) {
        let source = program("used(mellansko_crc32c(record, 2))");
        fails(&folder, way, &source, "arguments");
    }
}

fn compiles(folder: &Folder, way: Way, source: &str) {
    let compiled = folder.compiled(way, source);
    let said = String::from_utf8_lossy(&compiled.stderr);
    assert!(compiled.status.success(), "{way:?}\n{source}\n{said}");
}

/// The compiler refuses it, by an error or a warning that is made one, and that names this.
fn fails(folder: &Folder, way: Way, source: &str, names: &str) {
    let compiled = folder.compiled(way, source);
    let said = String::from_utf8_lossy(&compiled.stderr);
    assert!(!compiled.status.success(), "{way:?}\n{source}");
    assert!(said.contains(names), "{way:?}\n{source}\n{said}");
}
