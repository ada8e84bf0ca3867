//! The functions are declared here as they are in `include/skrapnefja.h` and in
//! the library's own source, the sizes, rows and combos are the same as in C, and
//! a reader of C is what its functions take.

use skrapnefja::*;
use std::collections::BTreeMap;
use std::fs;

const HEADER: &str = include_str!("../../../include/skrapnefja.h");
const FFI: &str = include_str!("../src/ffi.rs");

/// The folder with the source of what the library exports.
const SOURCES: &str = concat!(env!("CARGO_MANIFEST_DIR"), "/../../crates/skrapnefja_c/src");

/// Each function with its parameters, as Rust declares them.
type Functions = BTreeMap<String, Vec<String>>;

#[test]
fn same_functions() {
    let (c, rust) = (c_functions(), rust_functions());
    assert_eq!(c.len(), 20);
    assert_eq!(rust, c);
    assert_eq!(exported_functions(), c);
}

#[test]
fn same_sizes() {
    let c = c_sizes();
    assert_eq!(c.len(), 21);
    let (gcm, ctrmac) = (Combo::SivGcm, Combo::SivCtrmac);
    for (name, size) in [
        ("KEY_SIZE", KEY_LEN),
        ("WRAPPED_KEY_SIZE", WRAPPED_KEY_LEN),
        ("RAW_KEY_SIZE", RAW_KEY_LEN),
        ("LABEL_MAX", MAX_LABEL_LEN),
        ("VAULT_SIZE", VAULT_LEN),
        ("READER_KEYS_SIZE", READER_KEYS_LEN),
        ("SIV_GCM_NONCE_SIZE", gcm.nonce_len()),
        ("SIV_GCM_HEADER_SIZE", gcm.header_len()),
        ("SIV_GCM_CHUNK_OVERHEAD", gcm.chunk_overhead()),
        ("SIV_CTRMAC_NONCE_SIZE", ctrmac.nonce_len()),
        ("SIV_CTRMAC_HEADER_SIZE", ctrmac.header_len()),
        ("SIV_CTRMAC_CHUNK_OVERHEAD", ctrmac.chunk_overhead()),
        ("DIR_ID_MAX", 36),
        ("CHUNK_SIZE", CHUNK_LEN),
        ("CLEARTEXT_MAX", MAX_CLEARTEXT_LEN),
        ("PATH_SIZE", PATH_LEN),
        ("NAME_MAX", MAX_NAME_LEN),
        ("THRESHOLD_MIN", MIN_THRESHOLD as usize),
        ("THRESHOLD_MAX", MAX_THRESHOLD as usize),
        ("STORED_NAME_MAX", MAX_STORED_LEN),
        ("FULL_NAME_MAX", MAX_FULL_LEN),
    ] {
        assert_eq!(c[name], size, "{name}");
    }
}

/// A reader of C is its file and its keys, and the macro passes them as both
/// functions take them.
#[test]
fn same_reader() {
    let code = without_comments(HEADER);
    let members = between(&code, "struct skrapnefja_reader {", "}").trim();
    let members = members.split_terminator(';').map(str::trim);
    assert!(members.eq([
        "const uint8_t *file",
        "size_t file_len",
        "uint8_t keys[SKRAPNEFJA_READER_KEYS_SIZE]",
    ]));
    assert_eq!(
        between(&code, "#define SKRAPNEFJA_READER(reader) ", "\n"),
        "(reader).file, (reader).file_len, (reader).keys, sizeof (reader).keys"
    );
    let functions = c_functions();
    for (taken, keys) in [
        (&functions["open_reader"][2..6], "keys: *mut u8"),
        (&functions["reader_read"][..4], "keys: *const u8"),
    ] {
        let file = ["file: *const u8", "file_len: usize"];
        assert_eq!(taken, [&file[..], &[keys, "keys_len: usize"]].concat());
    }
}

/// Each combo has its name and number in C.
#[test]
fn same_combos() {
    let expected = [
        ("SIV_GCM", Combo::SivGcm as u32),
        ("SIV_CTRMAC", Combo::SivCtrmac as u32),
    ];
    assert_eq!(c_enum("combo"), numbered(&expected));
}

/// Each row has its name and number in C, and its refusal here.
#[test]
fn same_rows() {
    let refusals = [
        ("KEY_OR_NONCE_SIZE", Refusal::KeyOrNonceSize),
        ("DIRECTORY_ID", Refusal::DirectoryId),
        ("NAME", Refusal::Name),
        ("LENGTH", Refusal::Length),
        ("TEXT", Refusal::Text(7)),
        ("RANGE", Refusal::Range),
        ("ROOM", Refusal::Room),
        ("REPEATED_NONCE", Refusal::RepeatedNonce),
        ("HEADER", Refusal::Header),
        ("CHUNK", Refusal::Chunk(7)),
        ("HASH_NAME", Refusal::HashName),
        ("SYNTHETIC_IV", Refusal::SyntheticIv),
        ("LABEL", Refusal::Label(Some(7))),
        ("ALG", Refusal::Alg),
        ("SIGNATURE", Refusal::Signature),
        ("FORMAT", Refusal::Format),
        ("COMBO", Refusal::Combo),
        ("THRESHOLD", Refusal::Threshold),
        ("CHECK_VALUE", Refusal::CheckValue),
    ];
    let rows = refusals.map(|(name, refusal)| (name, refusal.row()));
    let expected = [&[("DONE", 0)], &rows[..]].concat();
    assert_eq!(c_enum("row"), numbered(&expected));
}

/// The constants of an enumeration, each with its number.
fn c_enum(name: &str) -> Vec<String> {
    let code = without_comments(HEADER);
    let constants = between(&code, &format!("enum skrapnefja_{name} {{"), "}");
    let constants = constants.split(',').map(str::trim);
    constants.map(String::from).collect()
}

/// The text behind the first `start`, up to the next `end`.
fn between<'a>(text: &'a str, start: &str, end: &str) -> &'a str {
    let (_, rest) = text.split_once(start).expect("a start");
    let (between, _) = rest.split_once(end).expect("an end");
    between
}

/// As they stand in C.
fn numbered(constants: &[(&str, u32)]) -> Vec<String> {
    let numbered = constants
        .iter()
        .map(|(name, number)| format!("SKRAPNEFJA_{name} = {number}"));
    numbered.collect()
}

fn c_sizes() -> BTreeMap<String, usize> {
    let code = without_comments(HEADER);
    let defines = code.split("#define SKRAPNEFJA_").skip(1);
    let parsed = defines.filter_map(|text| {
        let (name, value) = text.lines().next()?.split_once(' ')?;
        Some((name.to_string(), value.trim().parse().ok()?))
    });
    parsed.collect()
}

fn c_functions() -> Functions {
    let code = without_comments(HEADER);
    let declarations = code.split("uint32_t skrapnefja_").skip(1);
    let parsed = declarations.map(|text| {
        let (name, rest) = text.split_once('(').expect("parameters");
        let (parameters, _) = rest.split_once(");").expect("an end");
        let parameters = parameters.split(',').map(c_parameter).collect();
        (name.to_string(), parameters)
    });
    parsed.collect()
}

fn without_comments(text: &str) -> String {
    let mut parts = text.split("/*");
    let first = parts.next().expect("a first part").to_string();
    let after = parts.map(|part| part.split_once("*/").expect("an end").1);
    first + &after.collect::<String>()
}

fn c_parameter(text: &str) -> String {
    let text = text.trim();
    let start = text.rfind([' ', '*']).expect("a type") + 1;
    let (kind, name) = text.split_at(start);
    let kind = match kind.trim_end() {
        "const uint8_t *" => "*const u8",
        "uint8_t *" => "*mut u8",
        "uint64_t *" => "*mut u64",
        "uint32_t *" => "*mut u32",
        "uint64_t" => "u64",
        "uint32_t" => "u32",
        "size_t" => "usize",
        kind => panic!("another type: {kind}"),
    };
    format!("{name}: {kind}")
}

fn rust_functions() -> Functions {
    let declarations = FFI.split("pub fn skrapnefja_").skip(1);
    let parsed = declarations.map(|text| {
        let (name, rest) = text.split_once('(').expect("parameters");
        let (parameters, _) = rest.split_once(") -> u32;").expect("an end");
        let parameters = parameters.split(',').map(str::trim);
        let parameters = parameters.filter(|text| !text.is_empty());
        (name.to_string(), parameters.map(String::from).collect())
    });
    parsed.collect()
}

fn exported_functions() -> Functions {
    let sources = sources();
    let declarations = sources.iter().flat_map(|source| {
        let declarations = source.split("pub extern \"C\" fn skrapnefja_");
        declarations.skip(1)
    });
    let parsed = declarations.map(|text| {
        let (name, rest) = text.split_once('(').expect("parameters");
        let (parameters, _) = rest.split_once(") -> u32").expect("an end");
        let parameters = parameters.split(',').map(str::trim);
        let parameters = parameters.filter(|text| !text.is_empty());
        let parameters = parameters.flat_map(exported_parameter).collect();
        (name.to_string(), parameters)
    });
    parsed.collect()
}

fn sources() -> Vec<String> {
    let files = fs::read_dir(SOURCES).expect("a folder");
    let paths = files.map(|file| file.expect("a file").path());
    let paths = paths.filter(|path| path.extension().is_some_and(|end| end == "rt"));
    let texts = paths.map(|path| fs::read_to_string(path).expect("a text"));
    texts.collect()
}

/// A slice is a pointer and a length. What C calls `length` is `written` there.
fn exported_parameter(text: &str) -> Vec<String> {
    let (name, kind) = text.split_once(": ").expect("a type");
    let name = if name == "written" { "length" } else { name };
    match kind {
        "&[u8]" => vec![format!("{name}: *const u8"), format!("{name}_len: usize")],
        "&mut [u8]" => vec![format!("{name}: *mut u8"), format!("{name}_len: usize")],
        "&mut u64" => vec![format!("{name}: *mut u64")],
        "&mut u32" => vec![format!("{name}: *mut u32")],
        "u64" | "u32" => vec![format!("{name}: {kind}")],
        kind => panic!("another type: {kind}"),
    }
}
