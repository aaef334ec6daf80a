//! Makes crates/run_trailers/stdout.

fn main() {
    print!("{}", reference::runs::trailers::listing());
}
