use super::*;

/// More than any text here has, but for those on depth.
const DEEP: usize = 100;

fn read(text: &str) -> Option<Value> {
    parse(text.as_bytes(), DEEP)
}

fn text(characters: &str) -> Text {
    characters.chars().map(u32::from).collect()
}

fn string(characters: &str) -> Value {
    Value::String(text(characters))
}

fn number(written: &str) -> Value {
    Value::Number(written.to_string())
}

fn object<const N: usize>(members: [(&str, Value); N]) -> Value {
    let members = members.into_iter();
    Value::Object(members.map(|(name, value)| (text(name), value)).collect())
}

/// RFC 8259, section 13.
#[test]
fn an_object() {
    let image = r#"{
        "Image": {
            "Width":  800,
            "Height": 600,
            "Title":  "View from 15th Floor",
            "Thumbnail": {
                "Url":    "http://www.example.com/image/481989943",
                "Height": 125,
                "Width":  100
            },
            "Animated" : false,
            "IDs": [116, 943, 234, 38793]
          }
      }"#;
    let thumbnail = object([
        ("Url", string("http://www.example.com/image/481989943")),
        ("Height", number("125")),
        ("Width", number("100")),
    ]);
    let ids = ["116", "943", "234", "38793"].map(number).to_vec();
    let expected = object([
        ("Width", number("800")),
        ("Height", number("600")),
        ("Title", string("View from 15th Floor")),
        ("Thumbnail", thumbnail),
        ("Animated", Value::Boolean(false)),
        ("IDs", Value::Array(ids)),
    ]);
    assert_eq!(read(image), Some(object([("Image", expected)])));
}

/// RFC 8259, section 13.
#[test]
fn an_array() {
    let cities = r#"[
        {
           "precision": "zip",
           "Latitude":  37.7668,
           "Zip":       "94107"
        },
        {
           "precision": "zip",
           "Latitude":  -122.026020,
           "Zip":       "94085"
        }
      ]"#;
    let city = |latitude, zip| {
        object([
            ("precision", string("zip")),
            ("Latitude", number(latitude)),
            ("Zip", string(zip)),
        ])
    };
    let expected = vec![city("37.7668", "94107"), city("-122.026020", "94085")];
    assert_eq!(read(cities), Some(Value::Array(expected)));
}

/// RFC 8259, section 13, and the literals.
#[test]
fn single_values() {
    for (text, value) in [
        (r#""Hello world!""#, string("Hello world!")),
        ("42", number("42")),
        ("true", Value::Boolean(true)),
        ("false", Value::Boolean(false)),
        ("null", Value::Null),
        ("{}", object([])),
        (" [ ] ", Value::Array(vec![])),
        (r#"{"":0,"":[]}"#, {
            object([("", number("0")), ("", Value::Array(vec![]))])
        }),
    ] {
        assert_eq!(read(text), Some(value), "{text}");
    }
}

/// RFC 8259, sections 7, 8.2 and 8.3: a pair of surrogates stays two numbers,
/// and a single one is allowed.
#[test]
fn escapes() {
    for (written, numbers) in [
        (r#""""#, &[][..]),
        (
            r#""\"\\\/\b\f\n\r\t""#,
            &[0x22, 0x5c, 0x2f, 0x08, 0x0c, 0x0a, 0x0d, 0x09],
        ),
        (r#""a\\b""#, &[0x61, 0x5c, 0x62]),
        (r#""a\u005Cb""#, &[0x61, 0x5c, 0x62]),
        (r#""\u0000\uaBcD\uFFff""#, &[0, 0xabcd, 0xffff]),
        (r#""\uD834\uDD1E""#, &[0xd834, 0xdd1e]),
        (r#""\uDEAD""#, &[0xdead]),
        ("\"\u{1d11e}\u{7f}\u{80}\u{ffff}\u{feff}\"", {
            &[0x1d11e, 0x7f, 0x80, 0xffff, 0xfeff]
        }),
    ] {
        let value = Value::String(numbers.to_vec());
        assert_eq!(read(written), Some(value), "{written}");
    }
}

#[test]
fn broken_strings() {
    for text in [
        r#"""#,
        r#""a"#,
        r#""\"#,
        r#""\""#,
        r#""\a""#,
        r#""\U0061""#,
        r#""\u""#,
        r#""\u006""#,
        r#""\u006g""#,
        r#""\u+061""#,
        r#""\u 061""#,
        r#""\u{61}""#,
        r#""\x61""#,
        r#""\'""#,
        r#""\0""#,
        "\"\\\n\"",
        r#""a""b""#,
        r#"'a'"#,
        r#"a"#,
    ] {
        assert_eq!(read(text), None, "{text}");
    }
    for control in 0..0x20 {
        assert_eq!(parse(&[b'"', control, b'"'], DEEP), None, "{control}");
    }
}

/// Outside of ASCII only Rust's own strings are strings.
#[test]
fn utf8_in_strings() {
    for number in 0..=u16::MAX {
        let [one, two] = number.to_be_bytes();
        for bytes in [&[one, two][..], &[one, two, 0x80], &[one, two, 0xbf, 0x80]] {
            let plain = bytes
                .iter()
                .all(|byte| *byte >= 0x20 && !b"\"\\".contains(byte));
            let expected = std::str::from_utf8(bytes).ok().filter(|_| plain);
            if plain {
                let value = parse(&[b"\"", bytes, b"\""].concat(), DEEP);
                assert_eq!(value, expected.map(string), "{bytes:x?}");
            }
        }
    }
}

#[test]
fn numbers() {
    let long = "1234567890".repeat(100);
    let wholes = ["0", "-0", "8", "-8", "10", "18446744073709551652", &long];
    for whole in wholes {
        assert_eq!(read(whole), Some(number(whole)));
        assert_eq!(number(whole).whole(), Some(whole));
    }
    for other in [
        "8.0", "0.0", "-0.0", "8e0", "8E0", "8e+0", "8E-00", "1.5e300", "0e1",
    ] {
        assert_eq!(read(other), Some(number(other)));
        assert_eq!(number(other).whole(), None);
    }
    for text in [
        "", "-", "+8", "00", "08", "-00", "-08", "8.", ".8", "-.8", "8.e0", "8e", "8e+", "8e 0",
        "8e0.0", "8 8", "0x8", "8_0", "1,5", "8f", "8-", "- 8", "--8", "Infinity", "NaN", "-NaN",
        "٨",
    ] {
        assert_eq!(read(text), None, "{text}");
    }
}

/// Only numbers are whole, and only strings are text.
#[test]
fn kinds() {
    for text in ["null", "true", r#""8""#, "[8]", r#"{"8":8}"#] {
        assert_eq!(read(text).expect("a value").whole(), None);
    }
    for text in ["null", "false", "8", r#"["8"]"#, r#"{"8":"8"}"#] {
        assert_eq!(read(text).expect("a value").text(), None);
    }
    assert_eq!(string("8").text(), Some(&text("8")));
}

#[test]
fn same_characters() {
    assert!(is(&text(""), ""));
    assert!(is(&text("alg"), "alg"));
    for other in ["", "al", "algo", "Alg", "alg\0", "a1g"] {
        assert!(!is(&text(other), "alg"));
    }
}

#[test]
fn broken_arrays_and_objects() {
    for text in [
        "[", "]", "{", "}", "[}", "{]", "[,]", "[1,]", "[,1]", "[1 2]", "[1,,2]", "[1]]", "[[1]",
        "{,}",
    ] {
        assert_eq!(read(text), None, "{text}");
    }
    for inside in [
        r#""a""#,
        r#""a":"#,
        r#""a" 1"#,
        r#""a":1,"#,
        r#","a":1"#,
        r#""a":1 "b":2"#,
        r#""a":1;"b":2"#,
        r#""a"::1"#,
        r#""a":1}"#,
        r#""a":1}{"#,
        r#"a:1"#,
        r#"'a':1"#,
        r#"1:1"#,
        r#"null:1"#,
        r#"["a"]:1"#,
    ] {
        assert_eq!(read(&format!("{{{inside}}}")), None, "{inside}");
    }
}

#[test]
fn not_the_grammar() {
    for text in [
        "",
        " ",
        "nul",
        "nulll",
        "Null",
        "TRUE",
        "tru e",
        "truefalse",
        "undefined",
        "/**/1",
        "1//",
        "#\n1",
        "\u{feff}1",
        "1\u{feff}",
        "\u{a0}1",
        "1\0",
        "\x0b1",
        "1\x0c",
        "{},",
    ] {
        assert_eq!(read(text), None, "{text}");
    }
}

#[test]
fn white_space() {
    let spaced = " \t\r\n{ \"a\"\n:\t[ 1 , true\r]\n, \"b\" : \"\" } ";
    let elements = Value::Array(vec![number("1"), Value::Boolean(true)]);
    let expected = object([("a", elements), ("b", string(""))]);
    assert_eq!(read(spaced), Some(expected));
}

/// Arrays and objects alike; those that are closed do not count.
#[test]
fn depth() {
    for depth in 0..20 {
        let arrays = "[".repeat(depth) + &"]".repeat(depth);
        let objects = r#"{"a":"#.repeat(depth) + "1" + &"}".repeat(depth);
        let mixed = r#"[{"":"#.repeat(depth) + "null" + &"}]".repeat(depth);
        for limit in 0..50 {
            let reads = |text: &str| parse(text.as_bytes(), limit).is_some();
            assert_eq!(reads(&arrays), depth > 0 && depth <= limit);
            assert_eq!(reads(&objects), depth <= limit);
            assert_eq!(reads(&mixed), 2 * depth <= limit);
            let wide = format!("[{objects},{objects},{mixed},{objects}]");
            assert_eq!(reads(&wide), 2 * depth < limit);
        }
    }
}
