//! Makes crates/run_crc32c/stdout.

fn main() {
    print!("{}", reference::vectors::listing());
}
