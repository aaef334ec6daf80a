//! Makes crates/run_edges/stdout.

fn main() {
    print!("{}", reference::runs::edges::listing());
}
