//! No call of the library uses more than 8 KiB of stack.

mod calls;
#[path = "../common"]
mod common {
    pub mod labels;
    pub mod readers;
}
mod labels;
mod measure;
mod readers;

fn main() {
    calls::run();
}
