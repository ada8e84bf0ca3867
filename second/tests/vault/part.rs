//! The parts of a run, and the jobs that they make.

use crate::compare::Compare;
use crate::format;
use second::vault::Combo;

/// A name, and what is done: once, or with each combo.
pub type Part = (&'static str, Run);

#[derive(Clone, Copy)]
pub enum Run {
    Once(fn(&mut Compare)),
    Each(fn(&mut Compare, Combo)),
}

/// A part, or a part with one of the combos.
pub struct Job {
    pub name: String,
    pub run: Box<dyn Fn(&mut Compare) + Send + Sync>,
}

pub fn jobs((name, run): Part) -> Vec<Job> {
    match run {
        Run::Once(part) => vec![Job {
            name: name.to_string(),
            run: Box::new(part),
        }],
        Run::Each(part) => Vec::from(Combo::ALL.map(|combo| Job {
            name: format!("{name}, {}", format::name(combo)),
            run: Box::new(move |compare| part(compare, combo)),
        })),
    }
}
