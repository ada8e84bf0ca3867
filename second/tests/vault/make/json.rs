//! JSON texts, spelled in the many ways that the grammar has.

use crate::common::random::Random;
use crate::common::text::random_character;
use second::json::{Text, Value};

/// The numbers of these characters.
pub fn text(characters: &str) -> Text {
    characters.chars().map(u32::from).collect()
}

pub fn string(characters: &str) -> Value {
    Value::String(text(characters))
}

pub fn number(written: &str) -> Value {
    Value::Number(written.to_string())
}

/// A value of any kind, whose arrays and objects are at most this deep.
pub fn random_value(random: &mut Random, depth: usize) -> Value {
    let kinds = if depth == 0 { 6 } else { 8 };
    let inside = |random: &mut Random| random_value(random, depth.saturating_sub(1));
    match random.below(kinds) {
        0 => Value::Null,
        1 => Value::Boolean(random.below(2) == 0),
        2 | 3 => random_number(random),
        4 | 5 => Value::String(random_string(random)),
        6 => Value::Array((0..random.below(3)).map(|_| inside(random)).collect()),
        _ => {
            let members = 0..random.below(3);
            let member = |_| (random_string(random), inside(random));
            Value::Object(members.map(member).collect())
        }
    }
}

/// Letters, any characters, and numbers that are no characters.
pub fn random_string(random: &mut Random) -> Text {
    (0..random.below(6))
        .map(|_| match random.below(8) {
            0 => random.below(0x20) as u32,
            1 => 0xd800 + random.below(0x800) as u32,
            2 | 3 => {
                let width = 1 + random.below(4);
                random_character(random, width).into()
            }
            _ => u32::from(b'a') + random.below(26) as u32,
        })
        .collect()
}

fn random_number(random: &mut Random) -> Value {
    let sign = ["", "-"][random.below(2)];
    let whole = random.word() >> random.below(64);
    let fraction = match random.below(3) {
        0 => format!(".{}", random.below(1000)),
        _ => String::new(),
    };
    let exponent = match random.below(3) {
        0 => ["e0", "E+10", "e-07", "E999"][random.below(4)],
        _ => "",
    };
    number(&format!("{sign}{whole}{fraction}{exponent}"))
}

/// A text of this value. Half of them have no white space and no escape that is
/// not needed.
pub fn spell(random: &mut Random, value: &Value) -> Vec<u8> {
    let fancy = random.below(2) == 0;
    let mut speller = Speller {
        random,
        fancy,
        out: vec![],
    };
    speller.value(value);
    speller.out
}

struct Speller<'a> {
    random: &'a mut Random,
    fancy: bool,
    out: Vec<u8>,
}

impl Speller<'_> {
    fn chance(&mut self, one_of: usize) -> bool {
        self.fancy && self.random.below(one_of) == 0
    }

    fn white_space(&mut self) {
        while self.chance(4) {
            let byte = b" \t\n\r"[self.random.below(4)];
            self.out.push(byte);
        }
    }

    fn token(&mut self, token: &str) {
        self.white_space();
        self.out.extend(token.as_bytes());
        self.white_space();
    }

    fn value(&mut self, value: &Value) {
        match value {
            Value::Null => self.token("null"),
            Value::Boolean(true) => self.token("true"),
            Value::Boolean(false) => self.token("false"),
            Value::Number(written) => self.token(written),
            Value::String(text) => self.string(text),
            Value::Array(elements) => {
                self.token("[");
                for (i, element) in elements.iter().enumerate() {
                    self.comma(i);
                    self.value(element);
                }
                self.token("]");
            }
            Value::Object(members) => {
                self.token("{");
                for (i, (name, value)) in members.iter().enumerate() {
                    self.comma(i);
                    self.string(name);
                    self.token(":");
                    self.value(value);
                }
                self.token("}");
            }
        }
    }

    fn comma(&mut self, place: usize) {
        if place > 0 {
            self.token(",");
        }
    }

    fn string(&mut self, text: &Text) {
        self.white_space();
        self.out.push(b'"');
        for &number in text {
            let written = self.character(number);
            self.out.extend(written.as_bytes());
        }
        self.out.push(b'"');
        self.white_space();
    }

    /// A character as it is, if it may stand so, or escaped.
    fn character(&mut self, number: u32) -> String {
        let plain = char::from_u32(number).filter(|c| *c >= ' ' && !matches!(c, '"' | '\\'));
        if let Some(plain) = plain {
            if number > 0xffff || !self.chance(5) {
                return plain.to_string();
            }
        }
        let letter = match number {
            0x08 => 'b',
            0x09 => 't',
            0x0a => 'n',
            0x0c => 'f',
            0x0d => 'r',
            0x22 | 0x2f | 0x5c => number as u8 as char,
            _ => 'u',
        };
        if letter == 'u' || self.chance(2) {
            let digits = format!("{number:04x}");
            let cased = digits.chars().map(|digit| match self.random.below(2) {
                0 => digit.to_ascii_uppercase(),
                _ => digit,
            });
            return format!("\\u{}", cased.collect::<String>());
        }
        format!("\\{letter}")
    }
}
