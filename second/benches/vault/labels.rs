//! Labels.

use crate::common::labels::{filled, label, HEADER, PAYLOAD};
use crate::inputs::RAW_KEY;
use crate::time::both;
use second::vault::{self, Combo};
use skrapnefja::Label;

const LABELS: usize = 1000;

/// A label of 4,096 bytes: members of every kind, and those that are required.
const LONG: [&str; 3] = [
    "{",
    r#""some name":["some text",{"a":-1.5e3,"b":[true,false,null]},"\u00e9t\u00e9"],"#,
    r#""format":8,"cipherCombo":"SIV_GCM","shorteningThreshold":220}"#,
];

pub fn run() {
    let usual = label(&RAW_KEY, [HEADER.as_bytes(), PAYLOAD.as_bytes()]);
    open(
        &format!("{LABELS} labels of {} bytes opened", usual.len()),
        &usual,
    );
    let long = filled(&RAW_KEY, LONG);
    open(
        &format!("{LABELS} labels of {} bytes opened", long.len()),
        &long,
    );
}

/// The combo and the threshold go to the buffers.
fn open(name: &str, label: &[u8]) {
    both(
        name,
        &mut vec![vec![0; 2]; LABELS],
        |out| {
            let opens = out.iter_mut();
            opens.map(|out| by_library(label, out)).sum()
        },
        |out| {
            let opens = out.iter_mut();
            opens.map(|out| by_second(label, out)).sum()
        },
    );
}

fn by_library(label: &[u8], out: &mut [u8]) -> Result<usize, skrapnefja::Refusal> {
    let Label { combo, threshold } = Label::open(&RAW_KEY, label)?;
    out.copy_from_slice(&[combo as u8, threshold as u8]);
    Ok(out.len())
}

/// The same by the second program.
fn by_second(label: &[u8], out: &mut [u8]) -> Result<usize, vault::Refusal> {
    let (combo, threshold): (Combo, u8) = vault::open_label(&RAW_KEY, label)?;
    out.copy_from_slice(&[combo.number(), threshold]);
    Ok(out.len())
}
