//! Runs the check program `vault_check` of the repository on inputs whose line
//! is known, and compares all that it writes.

use second::vault::{Combo, Vault};
use std::io::Write;
use std::path::{Path, PathBuf};
use std::process::{Command, Stdio};
use std::{fs, thread, time::Duration};

fn root() -> PathBuf {
    Path::new(env!("CARGO_MANIFEST_DIR")).join("..")
}

/// The program's output for an input that comes in pieces.
fn line(pieces: &[&[u8]]) -> String {
    let mut program = Command::new(root().join("target/bin/vault_check"))
        .stdin(Stdio::piped())
        .stdout(Stdio::piped())
        .spawn()
        .expect("`make program` has built the program");
    let mut input = program.stdin.take().expect("it is piped");
    for piece in pieces {
        input
            .write_all(piece)
            .expect("the program reads to the end");
        thread::sleep(Duration::from_millis(20));
    }
    drop(input);
    let output = program.wait_with_output().expect("the program ends");
    assert!(output.status.success());
    String::from_utf8(output.stdout).expect("a line of ASCII")
}

/// The sample: its keys and then its file.
fn sample() -> Vec<u8> {
    let mut input = fs::read(root().join("samples/keys")).expect("the keys");
    input.extend(fs::read(root().join("samples/log.c9r")).expect("the file"));
    input
}

/// The most bytes that the program takes: the keys and a file.
const MOST: usize = 65_536;

/// Keys and a file that opens, of the most bytes together.
fn longest() -> Vec<u8> {
    let (enc, mac) = ([1; 32], [2; 32]);
    let cleartext = vec![3; 65_348];
    let nonces: Vec<_> = (0..24).collect();
    let mut input = [enc, mac].concat();
    input.resize(MOST, 0);
    let file = &mut input[64..];
    let vault = Vault::new(&enc, &mac, Combo::SivGcm, 220).expect("two keys");
    let length = vault.write_file(&[4; 12], &[5; 32], &nonces, &cleartext, file);
    assert_eq!(length, Ok(MOST - 64));
    input
}

#[test]
fn sizes_of_the_input() {
    assert_eq!(line(&[]), "refused 1\n");
    assert_eq!(line(&[&[0; 63]]), "refused 1\n");
    assert_eq!(line(&[&[0; 64]]), "refused 4\n");
}

/// Fails for a program that keeps 65,536 bytes of its input, and so takes one
/// that is longer for one of that length: it would answer row 9.
#[test]
fn longer_input_is_not_taken_for_the_longest() {
    assert_eq!(line(&[&[0; MOST]]), "refused 9\n");
    assert_eq!(line(&[&[0; MOST + 1]]), "refused 4\n");
    assert_eq!(line(&[&[0; 200_000]]), "refused 4\n");
}

/// Fails for the same program, which would open the file at the front.
#[test]
fn longer_input_with_a_file_at_its_front_does_not_open() {
    let mut input = longest();
    assert_eq!(line(&[&input]), "opened 65348 in 2 chunks\n");
    for len in [MOST + 1, 200_000] {
        input.resize(len, 0);
        assert_eq!(line(&[&input]), "refused 4\n");
    }
}

#[test]
fn the_sample_whole_and_in_pieces() {
    let input = sample();
    assert_eq!(line(&[&input]), "opened 40084 in 2 chunks\n");
    let (keys, file) = input.split_at(10);
    let (front, rest) = file.split_at(33_000);
    assert_eq!(line(&[keys, front, rest]), "opened 40084 in 2 chunks\n");
}

#[test]
fn the_sample_damaged() {
    let damaged = |place: usize| {
        let mut input = sample();
        input[place] ^= 1;
        line(&[&input])
    };
    let last = sample().len() - 1;
    assert_eq!(damaged(0), "refused 9\n");
    assert_eq!(damaged(64), "refused 9\n");
    assert_eq!(damaged(64 + 68), "refused 10 at 0\n");
    assert_eq!(damaged(last), "refused 10 at 1\n");
    assert_eq!(damaged(32), "opened 40084 in 2 chunks\n");
}
