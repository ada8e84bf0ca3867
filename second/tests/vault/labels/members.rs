//! Members: their order, those that are given twice, and those that are not.

use super::{
    bare, combo_string, object, opens, payload, row, with_member, ALG, COMBO, FORMAT, HEADER,
    PAYLOAD, THRESHOLD,
};
use crate::compare::Compare;
use crate::format::THRESHOLDS;
use crate::part::Part;
use crate::part::Run::{Each, Once};
use second::vault::Combo;

pub const PARTS: &[Part] = &[
    ("labels: every threshold", Each(thresholds)),
    ("labels: members in every order", Each(every_order)),
    ("labels: required members twice", Once(twice)),
    ("labels: other members twice", Once(unknown_twice)),
    ("labels: required members missing", Once(missing)),
    ("labels: names that are nearly right", Once(near_names)),
    ("labels: members of the other text", Once(other_text)),
];

fn thresholds(compare: &mut Compare, combo: Combo) {
    for threshold in THRESHOLDS {
        let payload = payload("8", &combo_string(combo), &threshold.to_string());
        opens(compare, HEADER, &payload, combo, threshold.into());
    }
    opens(compare, HEADER, PAYLOAD, Combo::SivGcm, 220);
    let [header, payload] = bare();
    opens(compare, &header, &payload, Combo::SivGcm, 220);
}

/// All orders of a list.
fn orders(list: &[String]) -> Vec<Vec<String>> {
    if list.is_empty() {
        return vec![vec![]];
    }
    let mut all = vec![];
    for place in 0..list.len() {
        let mut rest = list.to_vec();
        let first = rest.remove(place);
        for mut order in orders(&rest) {
            order.insert(0, first.clone());
            all.push(order);
        }
    }
    all
}

fn every_order(compare: &mut Compare, combo: Combo) {
    let header = [ALG, r#""typ":"JWT""#, r#""x":[{"alg":1}]"#].map(String::from);
    let payload = [
        FORMAT.to_string(),
        format!(r#""cipherCombo":{}"#, combo_string(combo)),
        r#""shorteningThreshold":36"#.to_string(),
        r#""jti":"a,b:{}""#.to_string(),
        r#""":{"format":9}"#.to_string(),
    ];
    for header in orders(&header) {
        for payload in orders(&payload) {
            opens(compare, &object(&header), &object(&payload), combo, 36);
        }
    }
}

/// The required members: the place of their text, their names and their values.
const REQUIRED: [(usize, &str, &str); 4] = [
    (0, "alg", r#""HS256""#),
    (1, "format", "8"),
    (1, "cipherCombo", r#""SIV_GCM""#),
    (1, "shorteningThreshold", "220"),
];

/// A name with one of its characters escaped.
fn escaped(name: &str, place: usize) -> String {
    let (start, rest) = name.split_at(place);
    let number = rest.as_bytes()[0];
    format!(r"{start}\u{number:04x}{}", &rest[1..])
}

/// Row 13, whatever the other value is.
fn twice(compare: &mut Compare) {
    let values = [
        "8",
        "9",
        "220",
        r#""HS256""#,
        r#""SIV_GCM""#,
        r#""SIV_CTRMAC""#,
        "null",
        "true",
        "[]",
        "{}",
        "8.0",
        r#""""#,
    ];
    for (place, name, own) in REQUIRED {
        let names = (0..name.len()).map(|i| escaped(name, i));
        let names: Vec<_> = names.chain([name.to_string()]).collect();
        for value in values.into_iter().chain([own]) {
            for name in &names {
                for _ in 0..4 {
                    let member = format!(r#""{name}":{value}"#);
                    assert_eq!(with_member(compare, place, &member), 13, "{member}");
                }
            }
        }
        // Three times, with others between them.
        let member = format!(r#""{name}":{own}"#);
        let thrice = [&member, r#""a":1"#, &member, r#""b":2"#].join(",");
        assert_eq!(with_member(compare, place, thrice), 13);
    }
}

fn unknown_twice(compare: &mut Compare) {
    let members = [
        r#""x":1,"x":1"#,
        r#""x":1,"x":[2],"\u0078":null"#,
        r#""":"","":"""#,
        r#""kid":1,"kid":2,"kid":3"#,
        r#""x":{"alg":1,"alg":2,"format":1,"format":2}"#,
        r#""x":[{"alg":"HS256"},{"alg":"HS256"}]"#,
        r#""Alg":1,"ALG":2,"Format":3,"FORMAT":4"#,
        r#""\uD800":1,"\uD800":2,"\uD800\uDC00":3,"𐀀":4"#,
    ];
    for member in members {
        for place in [0, 0, 1, 1] {
            assert_eq!(with_member(compare, place, member), 0, "{member}");
        }
    }
}

/// Every choice of the four members: only all of them are enough. Elsewhere, as
/// a value or inside of one, they are not given.
fn missing(compare: &mut Compare) {
    let payload = [FORMAT, COMBO, THRESHOLD];
    for choice in 0..16 {
        let header: &[_] = if choice < 8 { &[] } else { &[ALG] };
        let chosen = (0..3).filter(|i| choice >> i & 1 == 1);
        let chosen: Vec<_> = chosen.map(|i| payload[i]).collect();
        let right = choice == 15;
        let expected = if right { 0 } else { 13 };
        assert_eq!(row(compare, object(header), object(&chosen)), expected);
        for instead in [
            r#""x":"alg","y":"format","z":"cipherCombo","w":"shorteningThreshold""#,
            r#""x":{"alg":"HS256","format":8,"cipherCombo":"SIV_GCM","shorteningThreshold":220}"#,
            r#""x":[{"alg":"HS256"},{"format":8},{"cipherCombo":"SIV_GCM"},{"shorteningThreshold":220}]"#,
            r#""x":["alg","HS256","format",8,"shorteningThreshold",220]"#,
            r#""x":"\"alg\":\"HS256\",\"format\":8""#,
        ] {
            let header = [header, &[instead]].concat();
            let payload = [&[instead], &chosen[..]].concat();
            let row = row(compare, object(&header), object(&payload));
            assert_eq!(row, expected, "{instead}");
        }
    }
}

/// In place of the right one, row 13; beside it they are unknown members.
fn near_names(compare: &mut Compare) {
    for (place, name, value) in REQUIRED {
        let mut others = vec![
            String::new(),
            name.to_uppercase(),
            format!("{name}s"),
            format!(" {name}"),
            format!("{name} "),
            format!(r"{name}\u0000"),
            format!(r"\u0000{name}"),
            format!(r"{name}\n"),
            format!(r#"\"{name}\""#),
            format!("{name}\u{301}"),
            format!("\u{feff}{name}"),
            format!("{name}{name}"),
        ];
        for i in 0..name.len() {
            let number = name.as_bytes()[i];
            let (start, rest) = (&name[..i], &name[i + 1..]);
            others.push(name[..i].to_string());
            others.push(format!("{start}{rest}"));
            for number in [number ^ 0x20, number + 1, number - 1] {
                others.push(format!("{start}{}{rest}", char::from(number)));
            }
            // In its last byte, this one is the right character.
            others.push(format!(r"{start}\u01{number:02x}{rest}"));
            others.push(format!(r"{start}\u{number:02x}00{rest}"));
            others.push(format!(r"{start}\uff{number:02x}{rest}"));
        }
        for other in others {
            let member = format!(r#""{other}":{value}"#);
            assert_eq!(with_member(compare, place, &member), 0, "{member}");
            let mut texts = bare();
            texts[place] = texts[place].replace(&format!(r#""{name}":{value}"#), &member);
            assert_eq!(row(compare, &texts[0], &texts[1]), 13, "{member}");
        }
    }
}

/// `alg` is not looked at in the payload, and the other names not in the header.
fn other_text(compare: &mut Compare) {
    let values = ["8", "-1.5e3", r#""none""#, "null", "[[]]", r#"{"alg":{}}"#];
    for (place, name, own) in REQUIRED {
        for value in values.into_iter().chain([own]) {
            let member = format!(r#""{name}":{value}"#);
            assert_eq!(with_member(compare, 1 - place, &member), 0);
            let twice = format!("{member},{member}");
            assert_eq!(with_member(compare, 1 - place, &twice), 0);
        }
    }
    // Each text in the place of the other, and both members in both.
    let [header, payload] = bare();
    assert_eq!(row(compare, &payload, &header), 13);
    assert_eq!(row(compare, &header, &header), 13);
    assert_eq!(row(compare, &payload, &payload), 13);
    let all = object(&[ALG, FORMAT, COMBO, THRESHOLD]);
    assert_eq!(row(compare, &all, &all), 0);
    assert_eq!(row(compare, &all, &payload), 0);
    assert_eq!(row(compare, &header, &all), 0);
    assert_eq!(row(compare, &payload, &all), 13);
    assert_eq!(row(compare, &all, &header), 13);
}
