//! Labels under the raw key 0, 1, .., 63: each row once and more, and what a
//! label says. The signatures are those of another implementation of HMAC.

use skrapnefja::*;

/// That of the sample vault.
const SAMPLE: &str = include_str!("../../../samples/vault.cryptomator");

const HS256: &str = r#"{"alg":"HS256"}"#;
const PAYLOAD: &str = r#"{"format":8,"cipherCombo":"SIV_GCM","shorteningThreshold":220}"#;

fn open(label: &str) -> Result<Label, Refusal> {
    let raw_key: Vec<u8> = (0..RAW_KEY_LEN as u8).collect();
    Label::open(&raw_key, label.as_bytes())
}

/// A label with this signature, which is in base64url already.
fn label(header: &str, payload: &str, signature: &str) -> String {
    format!("{}.{}.{signature}", base64url(header), base64url(payload))
}

/// Without padding; the spare bits are zero.
fn base64url(text: &str) -> String {
    const DIGITS: &[u8; 64] = b"ABCDEFGHIJKLMNOPQRSTUVWXYZabcdefghijklmnopqrstuvwxyz0123456789-_";
    let mut encoded = String::new();
    for group in text.as_bytes().chunks(3) {
        let mut bytes = [0; 4];
        bytes[1..=group.len()].copy_from_slice(group);
        let bits = u32::from_be_bytes(bytes);
        for digit in 0..=group.len() {
            encoded.push(DIGITS[(bits >> (18 - 6 * digit)) as usize % 64].into());
        }
    }
    encoded
}

#[test]
fn opened() {
    for (label, combo, threshold) in [
        (SAMPLE.to_string(), Combo::SivGcm, 220),
        (
            label(
                HS256,
                r#"{"format":8,"cipherCombo":"SIV_CTRMAC","shorteningThreshold":36}"#,
                "LuUDoBg-JKdn7FkUWo_PkKNBbwlRQXzKiwlS1UIVxVE",
            ),
            Combo::SivCtrmac,
            36,
        ),
        // White space, escapes, and a member that is not known.
        (
            label(
                HS256,
                r#" { "shortening\u0054hreshold" : 100 , "cipherCombo" : "SIV\u005fGCM" , "format" : 8 , "x" : [ [ ] , 1e9 ] } "#,
                "VZ6R2ymfKH6IQDwXTI1Ff3aeoj3LpsA8ko1TtPwxx5k",
            ),
            Combo::SivGcm,
            100,
        ),
    ] {
        let opened = open(&label).expect("a label");
        assert_eq!(opened, Label { combo, threshold }, "{label}");
        let vault = Vault::new(&[1; KEY_LEN], &[2; KEY_LEN], opened).expect("two keys");
        assert_eq!(vault.label(), opened);
    }
}

/// Row 1 comes before all others.
#[test]
fn raw_keys() {
    for len in [0, RAW_KEY_LEN - 1, RAW_KEY_LEN + 1] {
        for label in [SAMPLE, "no label"] {
            let refusal = Label::open(&vec![0; len], label.as_bytes());
            assert_eq!(refusal, Err(Refusal::KeyOrNonceSize), "{len} bytes");
        }
    }
}

/// There is no place where the number of segments or the size is wrong, though
/// a segment is broken too.
#[test]
fn not_three_segments() {
    for label in [
        "",
        "no label",
        "!.!",
        "!.!.!.!",
        &SAMPLE.replace('.', ""),
        &format!("{SAMPLE}."),
        &format!("!{}..", "A".repeat(MAX_LABEL_LEN)),
    ] {
        assert_eq!(open(label), Err(Refusal::Label(None)), "{label}");
    }
}

/// The place of a broken segment, counted from the label's start.
#[test]
fn broken_segments() {
    let end = SAMPLE.len() as u64;
    for (label, place) in [
        (format!("{SAMPLE}\n"), end),
        (format!("{SAMPLE}="), end),
        (format!("\u{feff}{SAMPLE}"), 0),
        (SAMPLE.replacen("eyJ", "ey+", 1), 2),
        // The segments are "eyJh", "e30" and "AA", but for what is wrong.
        ("ey h.e30.AA".to_string(), 2),
        ("eyJh.e=0.AA".to_string(), 6),
        ("eyJh.e30.A/".to_string(), 10),
        ("eyJh.e30=.AA".to_string(), 8),
        // Only too short, by a character of the group or by its spare bits.
        ("eyJha.e30.AA".to_string(), 5),
        ("eyJh.e31.AA".to_string(), 8),
        ("eyJh.e30.A".to_string(), 10),
        (SAMPLE.replace("-ss", "-st"), end),
        // The first broken segment counts, and before any fault of JSON.
        ("!.!.!".to_string(), 0),
        ("AAAA.AA!.!".to_string(), 7),
        ("..!".to_string(), 2),
    ] {
        assert_eq!(open(&label), Err(Refusal::Label(Some(place))), "{label}");
    }
}

/// In C, `at` is written with a place only, and the results with success only.
#[test]
fn numbers() {
    let raw_key: Vec<u8> = (0..RAW_KEY_LEN as u8).collect();
    for (label, results) in [
        (SAMPLE, (0, 1, 220, 73)),
        ("eyJh.e=0.AA", (13, 71, 72, 6)),
        ("no label", (13, 71, 72, 73)),
        ("e30.e30.", (13, 71, 72, 73)),
        (&SAMPLE.replace("-ss", "-sw"), (15, 71, 72, 73)),
    ] {
        let (mut combo, mut threshold, mut at) = (71, 72, 73);
        // SAFETY: two slices, and three numbers.
        let row = unsafe {
            call!(skrapnefja_open_label:
                in raw_key, in label, set combo, set threshold, set at,)
        };
        assert_eq!((row, combo, threshold, at), results, "{label}");
    }
}

/// Row 13 comes before a wrong signature.
#[test]
fn texts() {
    for payload in [
        "",
        "8",
        r#"{"format":8,"cipherCombo":"SIV_GCM"}"#,
        r#"{"format":8,"cipherCombo":"SIV_GCM","shorteningThreshold":220"#,
        r#"{"format":8.0,"cipherCombo":"SIV_GCM","shorteningThreshold":220}"#,
        r#"{"format":"8","cipherCombo":"SIV_GCM","shorteningThreshold":220}"#,
        r#"{"format":8,"cipherCombo":"SIV_GCM","shorteningThreshold":22e1}"#,
        r#"{"format":8,"format":8,"cipherCombo":"SIV_GCM","shorteningThreshold":220}"#,
        r#"{"format":8,"\u0066ormat":8,"cipherCombo":"SIV_GCM","shorteningThreshold":220}"#,
    ] {
        assert_eq!(open(&label(HS256, payload, "")), Err(Refusal::Label(None)));
    }
    for header in [
        "{}",
        "[]",
        r#"{"alg":256}"#,
        r#"{"alg":"none","alg":"HS256"}"#,
    ] {
        assert_eq!(open(&label(header, PAYLOAD, "")), Err(Refusal::Label(None)));
    }
}

/// A label of 4,096 bytes is read, and a longer one is not, though both are
/// well formed.
#[test]
fn longest() {
    let without = label(HS256, PAYLOAD, "").len();
    for (len, refusal) in [
        (MAX_LABEL_LEN, Refusal::Signature),
        (MAX_LABEL_LEN + 1, Refusal::Label(None)),
    ] {
        let signature = "A".repeat(len - without);
        assert_eq!(open(&label(HS256, PAYLOAD, &signature)), Err(refusal));
    }
}

/// Arrays and objects of a member may be eight deep.
#[test]
fn nested() {
    for (depth, refusal) in [(8, Refusal::Signature), (9, Refusal::Label(None))] {
        for (front, inner, back) in [("[", "", "]"), (r#"{"":"#, "0", "}")] {
            let value = front.repeat(depth) + inner + &back.repeat(depth);
            let payload = PAYLOAD.replace('}', &format!(r#","x":{value}}}"#));
            assert_eq!(open(&label(HS256, &payload, "")), Err(refusal), "{payload}");
        }
    }
}

/// Row 15 for any other bytes, of any number, and for another raw key.
#[test]
fn signatures() {
    let (texts, signature) = SAMPLE.rsplit_once('.').expect("a signature");
    for other in [
        "",
        &signature[..40],
        &format!("{}A", &signature[..42]),
        &format!("{signature}A"),
    ] {
        let label = format!("{texts}.{other}");
        assert_eq!(open(&label), Err(Refusal::Signature), "{label}");
    }
    let other_key = Label::open(&[0; RAW_KEY_LEN], SAMPLE.as_bytes());
    assert_eq!(other_key, Err(Refusal::Signature));
}

/// Rows 14, 16, 17 and 18, of labels with a right signature.
#[test]
fn refused() {
    for (header, payload, signature, refusal) in [
        (
            r#"{"alg":"HS384"}"#,
            PAYLOAD,
            "oSm7X-NwLSyc4xtdGPqHTH1ShciD5LAfC7uaIbKoDnU",
            Refusal::Alg,
        ),
        (
            HS256,
            r#"{"format":7,"cipherCombo":"SIV_GCM","shorteningThreshold":220}"#,
            "I4V-bNvu_j3lyYOgOmopfRVN9DFiuOH4KM7BgisRveQ",
            Refusal::Format,
        ),
        (
            HS256,
            r#"{"format":8,"cipherCombo":"SIV_gcm","shorteningThreshold":220}"#,
            "on32TRbv2s8KBW4TAbpyj8yVlEJwpDtGXFAR6JIbE3c",
            Refusal::Combo,
        ),
        (
            HS256,
            r#"{"format":8,"cipherCombo":"SIV_GCM","shorteningThreshold":35}"#,
            "vtrfWcH9xTjBe9cjmL_ZXwmeH-GGiJ-83aZgIV3JCtk",
            Refusal::Threshold,
        ),
        (
            HS256,
            r#"{"format":8,"cipherCombo":"SIV_GCM","shorteningThreshold":221}"#,
            "0VbBHBvKEc0DbYWWe-gTnzETwh55xrAPpFYSrPX-qNI",
            Refusal::Threshold,
        ),
    ] {
        let signed = label(header, payload, signature);
        assert_eq!(open(&signed), Err(refusal), "{payload}");
        // Only row 14 comes before a wrong signature.
        let first = refusal.row().min(Refusal::Signature.row());
        let unsigned = open(&label(header, payload, "")).map_err(Refusal::row);
        assert_eq!(unsigned, Err(first), "{payload}");
    }
}
