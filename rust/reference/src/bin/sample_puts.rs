//! Writes to standard output what LevelDB puts into a database for `samples/leveldb.log`, in the form
//! of interop/records.h.

use std::io::{self, Write};

fn main() -> io::Result<()> {
    let mut output = io::stdout().lock();
    for record in reference::samples::puts() {
        let length = u32::try_from(record.len()).expect("a record of the day");
        output.write_all(&length.to_le_bytes())?;
        output.write_all(record.as_bytes())?;
    }
    output.flush()
}
