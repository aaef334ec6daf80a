//! Makes crates/run_reasons/stdout.

fn main() {
    print!("{}", reference::runs::reasons::listing());
}
