use super::*;

const KEY: [u8; RAW_KEY_LEN] = [9; RAW_KEY_LEN];

const HEADER: &str = r#"{"alg":"HS256"}"#;
const PAYLOAD: &str = r#"{"format":8,"cipherCombo":"SIV_GCM","shorteningThreshold":220}"#;

/// The label of two texts, signed under the key.
fn label(header: &str, payload: &str) -> Vec<u8> {
    let segments = [header, payload].map(|text| base64url::encode(text.as_bytes(), false));
    let signed = segments.join(".");
    let signature = hmac::mac(&KEY, signed.as_bytes());
    (signed + "." + &base64url::encode(&signature, false)).into_bytes()
}

fn opened(header: &str, payload: &str) -> Result<(Combo, u8), Refusal> {
    open_label(&KEY, &label(header, payload))
}

/// The row of a payload with these three values.
fn row(format: &str, combo: &str, threshold: &str) -> u32 {
    let payload =
        format!(r#"{{"format":{format},"cipherCombo":{combo},"shorteningThreshold":{threshold}}}"#);
    opened(HEADER, &payload).map_or_else(Refusal::row, |_| 0)
}

/// A label of distinct keys, which OpenSSL confirmed.
#[test]
fn distinct_keys() {
    let label = "eyJraWQiOiJtYXN0ZXJrZXlmaWxlOm1hc3RlcmtleS5jcnlwdG9tYXRvciIsInR5cCI6IkpXVCIsImFs\
                 ZyI6IkhTMjU2In0.eyJqdGkiOiIwZjhmYWQ1Yi1kOWNiLTQ2OWYtYTE2NS03MDg2NzcyODk1MGUiLCJm\
                 b3JtYXQiOjgsImNpcGhlckNvbWJvIjoiU0lWX0dDTSIsInNob3J0ZW5pbmdUaHJlc2hvbGQiOjIyMH0.\
                 Jyt9biWZe_GKEn4M7jlyouwdwP103TigKi_fF9qJ-ss";
    let mut key: [u8; RAW_KEY_LEN] = std::array::from_fn(|i| i as u8);
    let label = label.as_bytes();
    assert_eq!(open_label(&key, label), Ok((Combo::SivGcm, 220)));
    key.rotate_left(KEY_LEN);
    assert_eq!(open_label(&key, label), Err(Refusal::Signature));
}

/// RFC 7515, appendix A.1: its key, header and payload give its signature, but
/// the payload is not a label's.
#[test]
fn json_web_signature() {
    let key = "AyM1SysPpbyDfgZld3umj1qzKObwVMkoqQ-EstJQLr_T-1qS0gZH75aKtMN3Yj0iPS4hcgUuTwjAzZr1Z9\
               CAow";
    let signed =
        "eyJ0eXAiOiJKV1QiLA0KICJhbGciOiJIUzI1NiJ9.eyJpc3MiOiJqb2UiLA0KICJleHAiOjEzMDA4MTkz\
                  ODAsDQogImh0dHA6Ly9leGFtcGxlLmNvbS9pc19yb290Ijp0cnVlfQ";
    let signature = "dBjftJeZ4CVP-mB92K27uhbUJU1p1r_wW1gFWFOEjXk";
    let key = base64url::decode(key.as_bytes(), false).expect("a key");
    let mac = hmac::mac(&key, signed.as_bytes());
    assert_eq!(base64url::encode(&mac, false), signature);

    let label = [signed, signature].join(".");
    assert_eq!(
        open_label(&key, label.as_bytes()),
        Err(Refusal::Label(None))
    );
    let segments = Segments::of(label.as_bytes()).unwrap_or_else(|_| panic!("three segments"));
    let header = object(&segments.header).expect("an object");
    let alg = only(&header, "alg").and_then(Value::text);
    assert!(alg.is_some_and(|alg| is(alg, ALGORITHM)));
}

#[test]
fn combos_and_thresholds() {
    for combo in Combo::ALL {
        for threshold in 36..=220 {
            let payload = format!(
                r#"{{"shorteningThreshold":{threshold},"cipherCombo":"{}","format":8}}"#,
                combo.name()
            );
            assert_eq!(opened(HEADER, &payload), Ok((combo, threshold)));
        }
    }
}

/// Each row with all that are tried after it.
#[test]
fn rows() {
    let (wrong, other) = (r#"{"alg":"none"}"#, "-8");
    let worst = r#"{"format":9,"cipherCombo":"","shorteningThreshold":0}"#;
    let broken = label(wrong, "{}");
    assert_eq!(open_label(&KEY[1..], &broken), Err(Refusal::KeyOrNonceSize));
    assert_eq!(open_label(&KEY, &broken), Err(Refusal::Label(None)));
    let unsigned = |header: &str| {
        let mut label = label(header, worst);
        let last = label.len() - 2;
        label[last] ^= 1;
        open_label(&KEY, &label)
    };
    assert_eq!(unsigned(wrong), Err(Refusal::Alg));
    assert_eq!(unsigned(HEADER), Err(Refusal::Signature));
    assert_eq!(row(other, r#""SIV""#, "0"), 16);
    assert_eq!(row("8", r#""SIV""#, "0"), 17);
    assert_eq!(row("8", r#""SIV_GCM""#, "0"), 18);
    assert_eq!(row("8", r#""SIV_GCM""#, "36"), 0);
}

#[test]
fn whole_numbers() {
    let huge = "9".repeat(1000);
    for other in [
        "0",
        "-0",
        "7",
        "9",
        "-8",
        "88",
        &huge,
        "18446744073709551624",
    ] {
        assert_eq!(row(other, r#""SIV_GCM""#, "220"), 16, "{other}");
    }
    for other in [
        "0",
        "-0",
        "35",
        "221",
        "-36",
        "-220",
        "292",
        "4294967332",
        "18446744073709551652",
        &huge,
    ] {
        assert_eq!(row("8", r#""SIV_GCM""#, other), 18, "{other}");
    }
    for other in ["8.0", "8e0", "80e-1", "08", "+8", "\"8\"", "null", "[8]"] {
        assert_eq!(row(other, r#""SIV_GCM""#, "220"), 13, "{other}");
    }
    for other in ["220.0", "22e1", "0220", "\"220\"", "true", "{}"] {
        assert_eq!(row("8", r#""SIV_GCM""#, other), 13, "{other}");
    }
}

#[test]
fn names_and_strings_after_escapes() {
    let header = r#"{"\u0061l\u0067":"\u0048S25\u0036"}"#;
    let payload = PAYLOAD.replace("format", r"f\u006frmat");
    let payload = payload.replace("SIV_GCM", r"SIV\u005fG\u0043M");
    assert_eq!(opened(header, &payload), Ok((Combo::SivGcm, 220)));
    for (twice, at) in [
        (r#""format":8"#, 0),
        (r#""f\u006frmat":9"#, 0),
        (r#""format":null"#, 1),
    ] {
        let payload = match at {
            0 => PAYLOAD.replace('{', &format!("{{{twice},")),
            _ => PAYLOAD.replace('}', &format!(",{twice}}}")),
        };
        assert_eq!(opened(HEADER, &payload), Err(Refusal::Label(None)));
    }
    for header in [
        r#"{"alg":"hs256"}"#,
        r#"{"alg":"HS256\u0000"}"#,
        r#"{"alg":""}"#,
    ] {
        assert_eq!(opened(header, PAYLOAD), Err(Refusal::Alg));
    }
    for header in [
        "{}",
        r#"{"Alg":"HS256"}"#,
        r#"{"alg":["HS256"]}"#,
        r#"{"x":{"alg":"HS256"}}"#,
    ] {
        assert_eq!(opened(header, PAYLOAD), Err(Refusal::Label(None)));
    }
}

/// Nothing is asked of them, but that they are not too deep.
#[test]
fn unknown_members() {
    let nested = |depth| "[".repeat(depth) + &"]".repeat(depth);
    for (unknown, refusal) in [
        (r#""x":1,"x":2,"":{"a":1,"a":2}"#.to_string(), None),
        (r#""alg":"none","alg":0"#.to_string(), None),
        (format!(r#""x":{}"#, nested(8)), None),
        (format!(r#""x":{}"#, nested(9)), Some(Refusal::Label(None))),
    ] {
        let payload = PAYLOAD.replace('{', &format!("{{{unknown},"));
        assert_eq!(opened(HEADER, &payload).err(), refusal);
    }
    let header = r#"{"format":9,"format":"","alg":"HS256","cipherCombo":null}"#;
    assert_eq!(opened(header, PAYLOAD), Ok((Combo::SivGcm, 220)));
}

/// The three segments of a label that opens.
fn right_segments() -> [String; 3] {
    let text = String::from_utf8(label(HEADER, PAYLOAD)).expect("ASCII");
    let segments: Vec<_> = text.split('.').map(String::from).collect();
    segments.try_into().expect("three segments")
}

#[test]
fn segments() {
    let [header, payload, signature] = right_segments();
    let text = format!("{header}.{payload}.{signature}");
    for (other, refusal) in [
        (String::new(), Refusal::Label(None)),
        ("..".to_string(), Refusal::Label(None)),
        ("...".to_string(), Refusal::Label(None)),
        (format!("{header}.{payload}"), Refusal::Label(None)),
        (format!("{text}."), Refusal::Label(None)),
        (format!(".{text}"), Refusal::Label(None)),
        (
            format!("{payload}.{header}.{signature}"),
            Refusal::Label(None),
        ),
        (format!("{header}.{payload}."), Refusal::Signature),
        (format!("{header}.{payload}.AA"), Refusal::Signature),
        (
            format!("{header}.{payload}.{signature}A"),
            Refusal::Signature,
        ),
    ] {
        assert_eq!(open_label(&KEY, other.as_bytes()), Err(refusal), "{other}");
    }
    assert_eq!(open_label(&KEY, text.as_bytes()), Ok((Combo::SivGcm, 220)));
}

/// The header has 20 characters, the payload 83 and the signature 43.
#[test]
fn places() {
    let [header, payload, signature] = right_segments();
    assert_eq!(
        [20, 83, 43],
        [&header, &payload, &signature].map(String::len)
    );
    let text = format!("{header}.{payload}.{signature}");
    for (other, place) in [
        (format!("{text}="), 148),
        (format!("{text}\n"), 148),
        (format!("{text}AA"), 150),
        (format!("{header}.{payload}.A"), 106),
        (format!("{header}.{payload}.AB"), 107),
        (format!("{header}.{payload}.AAB"), 108),
        (format!("{header}.{payload}.+"), 105),
        (format!("{header}.{payload}=.{signature}"), 104),
        (format!("{header}.{payload}AA.{signature}"), 106),
        (format!("{header}.A.{signature}"), 22),
        (format!("{header}=.{payload}.{signature}"), 20),
        (format!("{header}A.{payload}.{signature}"), 21),
        (format!(" {text}"), 0),
        ("A..".to_string(), 1),
        (".A.".to_string(), 2),
        ("..A".to_string(), 3),
        ("..=".to_string(), 2),
        // The first broken segment counts, and only then what they hold.
        (format!("{header}A.+.="), 21),
        (format!("{header}.+.="), 21),
        ("AAAA.AAAA.A".to_string(), 11),
        ("AAAA..AB".to_string(), 8),
    ] {
        let refusal = Refusal::Label(Some(place));
        assert_eq!(open_label(&KEY, other.as_bytes()), Err(refusal), "{other}");
    }
}

/// The size and the dots come before the segments.
#[test]
fn no_places() {
    for other in [
        "=".to_string(),
        "=.".to_string(),
        "=...".to_string(),
        "A.A.A.A".to_string(),
        format!("{}..", "=".repeat(4095)),
        format!("..{}", "A".repeat(4097)),
    ] {
        let opened = open_label(&KEY, other.as_bytes());
        assert_eq!(opened, Err(Refusal::Label(None)), "{other}");
    }
    let longest = format!("..{}", "A".repeat(4093));
    let opened = open_label(&KEY, longest.as_bytes());
    assert_eq!(opened, Err(Refusal::Label(Some(4095))));
}

/// White space brings a label to 4,096 bytes, and to one more.
#[test]
fn lengths() {
    for (payload, len, opens) in [(3023, 4096, true), (3024, 4097, false)] {
        let payload = PAYLOAD.to_string() + &" ".repeat(payload - PAYLOAD.len());
        let label = label(HEADER, &payload);
        assert_eq!(label.len(), len);
        assert_eq!(open_label(&KEY, &label).is_ok(), opens);
    }
}
