//! Times the static library and `second` on the same inputs, and measures how
//! much stack the library takes.

mod files;
mod inputs;
mod keys;
mod labels;
mod long_names;
mod mends;
mod names;
mod parts;
mod readers;
#[path = "../../tests/common"]
mod common {
    pub mod labels;
    pub mod readers;
}
#[expect(dead_code, reason = "only what files are made by is timed by itself")]
#[path = "../../tests/common/primitives.rs"]
mod primitives;
#[path = "../../tests/common/random.rs"]
mod random;
#[path = "../../tests/stack"]
mod stack {
    pub mod calls;
    pub mod labels;
    pub mod measure;
    pub mod readers;
}
#[expect(dead_code, reason = "names are timed in one alphabet each")]
#[path = "../../tests/common/text.rs"]
mod text;
mod time;

fn main() {
    println!(
        "The library and the second program, both as optimised builds, on the same inputs.\n\
         Answers are compared, byte for byte. Before each timed call or row of calls all bytes\n\
         of the buffers for its answers are set to 0, so that their memory is there, and a file\n\
         that is mended to what it was; inputs are left as they are. Each time is the least of\n\
         {} rounds, in which the two take turns.\n",
        time::ROUNDS
    );
    println!(
        "{:44} {:>12} {:>12} {:>7}",
        "", "library", "second", "ratio"
    );
    files::run();
    names::run();
    long_names::run();
    keys::run();
    labels::run();
    println!();
    parts::run();
    println!();
    stack::calls::run();
}
