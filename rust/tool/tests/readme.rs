//! What the README shows of the tool is what it says.

mod common;

use common::files::Folder;
use common::ran;
use std::fs;
use std::path::Path;
use std::process::{Command, Stdio};

/// A folder where what the lines write is in nobody's way.
fn with_samples(root: &Path) -> Folder {
    let folder = Folder::new("readme");
    fs::create_dir(folder.join("samples")).expect("a folder");
    for name in ["clean", "damaged", "torn", "leveldb"] {
        let name = format!("samples/{name}.log");
        fs::copy(root.join(&name), folder.join(&name)).expect("a sample");
    }
    folder
}

#[test]
fn the_readme_shows_what_the_tool_says() {
    let root = Path::new(env!("CARGO_MANIFEST_DIR")).join("../..");
    let readme = fs::read_to_string(root.join("README.md")).expect("the README");
    let folder = with_samples(&root);
    let mut shown = 0;
    for block in readme.split("\n```console\n$ ").skip(1) {
        let (block, _) = block.split_once("```").expect("the block's end");
        let (line, says) = block.split_once('\n').expect("a line and what it says");
        let mut shell = Command::new("sh");
        shell.args(["-c", &line.replace("./mellansko", "\"$TOOL\"")]);
        shell.env("TOOL", env!("CARGO_BIN_EXE_mellansko"));
        shell.env("MELLANSKO", "./mellansko").stdin(Stdio::null());
        let ran = ran(shell.current_dir(&*folder));
        assert_eq!((ran.text(), ran.err.as_str()), (says, ""), "{line}");
        shown += 1;
    }
    assert_eq!(shown, 4, "blocks that show the tool");
}
