//! Rates of the proved calls, each beside other programs that are run in turn with it. Only the
//! ratios and the differences mean something on another machine.

mod answers;
mod byte_table;
mod checksums;
mod damaged;
mod fed;
mod logs;
mod long;
mod mend;
mod other;
mod sample;
mod turns;
mod types;

use other::Other;
use std::env::args;

/// A part's name, and what prints it, with the figures of the other programs where it has some.
type Part = (&'static str, fn(&mut [Other]));

/// In the order in which they are printed.
const PARTS: [Part; 7] = [
    ("checksums", |_| checksums::print()),
    ("logs", logs::print),
    ("types", |_| types::print()),
    ("fed", |_| fed::print()),
    ("damaged", |_| damaged::print()),
    ("mend", |_| mend::print()),
    ("long", |_| long::print()),
];

/// The arguments: `--leveldb` and the program made of bench/leveldb.cc, `--before` and this program
/// with another archive, where there are such, and then the names of the parts to print, or none
/// for all. With `--answer` this is such a program itself, which is asked by another one.
fn main() {
    let mut arguments = args().skip(1).peekable();
    if arguments.next_if_eq("--answer").is_some() {
        return answers::give();
    }
    let mut others = Vec::new();
    for (option, name, given) in OTHERS {
        if arguments.next_if_eq(option).is_some() {
            let path = arguments.next();
            let path = path.unwrap_or_else(|| panic!("a program has to follow {option}"));
            others.push(Other::start(name, &path, given));
        }
    }
    let wanted: Vec<String> = arguments.collect();
    let names = PARTS.map(|(name, _)| name);
    for name in &wanted {
        let known = names.contains(&name.as_str());
        assert!(known, "there is no part {name}, but {}", names.join(", "));
    }
    for (name, print) in PARTS {
        if wanted.is_empty() || wanted.iter().any(|wanted| wanted == name) {
            print(&mut others);
        }
    }
}

/// The options that name another program, in their order, its name, and what it is given.
const OTHERS: [(&str, &str, &[&str]); 2] = [
    ("--leveldb", "LevelDB", &[]),
    ("--before", "before", &["--answer"]),
];
