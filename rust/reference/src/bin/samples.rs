//! Makes the samples that this crate writes, in the folder given.

use reference::samples;
use std::path::Path;
use std::{env, fs, process};

fn main() {
    let Some(folder) = env::args_os().nth(1) else {
        eprintln!("usage: samples FOLDER");
        process::exit(2);
    };
    let files = [
        ("clean.log", samples::clean().log),
        ("torn.log", samples::torn()),
        ("damaged.log", samples::damaged()),
        ("old_writer.log", samples::old_writer().log),
    ];
    for (name, log) in files {
        let path = Path::new(&folder).join(name);
        if let Err(error) = fs::write(&path, log) {
            eprintln!("{}: {error}", path.display());
            process::exit(1);
        }
    }
}
