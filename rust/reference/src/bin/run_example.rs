//! Makes crates/run_example/stdout.

fn main() {
    print!("{}", reference::runs::example::listing());
}
