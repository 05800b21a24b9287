//! Writes the inputs and expected outputs of the test programs.

use std::fs;
use std::path::Path;

use crate::cases::bundle_cases::bundles;
use crate::cases::call_cases::calls;
use crate::cases::valley_cases::valleys;
use crate::hmac::{bytes_of, hmac};
use crate::hosts::group_simulation;
use crate::hosts::lossy_host;
use crate::hosts::small_host;
use crate::sha256::sha256;
use crate::tester::author::Author;

/// What the group simulation is run on in the gate: all three groups, both radios, and questions of
/// each kind.
const GROUP_SIMULATION: &[u8] = b"aa01mmm0m1m";

/// The script of calls, and what it prints: the checks, then all other calls on the same registers.
pub fn script() -> (String, String) {
    let author = calls(bundles(Author::recording()));
    author.record.expect("it was recorded")
}

/// Every file that is written, by its place below the directory, with what it holds.
pub fn files() -> Vec<(&'static str, Vec<u8>)> {
    let (script, results) = script();
    let (valley_inputs, valley_outputs) = valleys();
    vec![
        ("crates/hash_vectors/stdout", hashes().into_bytes()),
        ("crates/small_host/stdout", small_host::run().into_bytes()),
        ("crates/lossy_host/stdout", lossy_host::run().into_bytes()),
        ("crates/group_simulation/stdin", GROUP_SIMULATION.to_vec()),
        (
            "crates/group_simulation/stdout",
            group_simulation::run(GROUP_SIMULATION).into_bytes(),
        ),
        ("crates/call_cases/stdin", script.into_bytes()),
        ("crates/call_cases/stdout", results.into_bytes()),
        ("crates/valley_cases/stdin", valley_inputs),
        ("crates/valley_cases/stdout", valley_outputs),
    ]
}

/// Writes every file below a directory.
pub fn generate(directory: &Path) -> Result<(), String> {
    for (place, content) in files() {
        let path = directory.join(place);
        let parent = path.parent().expect("a file is in a directory");
        let written = fs::create_dir_all(parent).and_then(|()| fs::write(&path, &content));
        written.map_err(|error| format!("{place}: {error}"))?;
        println!("{place}: {} bytes", content.len());
    }
    Ok(())
}

/// The counting pattern: byte i is i mod 256.
fn counting(length: usize) -> Vec<u8> {
    (0..length).map(|i| i as u8).collect()
}

fn line(digest: &[u8]) -> String {
    let hex: String = digest.iter().map(|byte| format!("{byte:02x}")).collect();
    hex + "\n"
}

/// Digests and codes, one a line: the FIPS 180-4 examples, RFC 4231, and the counting patterns.
fn hashes() -> String {
    let hash = |message: &[u8]| line(&sha256(message).expect("a short message"));
    let mac = |key: &[u8], message: &[u8]| hmac(key, message).expect("a short message");
    let mut text: String = fips_messages()
        .iter()
        .map(|message| hash(message))
        .collect();
    for (case, (key, message)) in rfc_4231().iter().enumerate() {
        let digest = mac(key, message);
        // case 5 is cut to 128 bits
        let shown = if case == 4 {
            &digest[..16]
        } else {
            &digest[..]
        };
        text.push_str(&line(shown));
    }
    for length in 0..=130 {
        text.push_str(&hash(&counting(length)));
    }
    for length in 0..=130 {
        text.push_str(&line(&mac(&counting(length), &counting(130 - length))));
    }
    for k in 0..=13 {
        let words: Vec<u32> = (0..k).map(|i| 0x0102_0304u32.wrapping_mul(i + 1)).collect();
        text.push_str(&line(&mac(&counting(32), &bytes_of(&words))));
    }
    // fourteen words do not fit one block, which the code from a prepared key answers by 3
    text.push_str("03\n");
    text
}

fn fips_messages() -> Vec<Vec<u8>> {
    vec![
        b"".to_vec(),
        b"abc".to_vec(),
        b"abcdbcdecdefdefgefghfghighijhijkijkljklmklmnlmnomnopnopq".to_vec(),
        b"abcdefghbcdefghicdefghijdefghijkefghijklfghijklmghijklmn\
          hijklmnoijklmnopjklmnopqklmnopqrlmnopqrsmnopqrstnopqrstu"
            .to_vec(),
        vec![b'a'; 1_000_000],
    ]
}

/// Keys and messages of RFC 4231, cases 1 to 7.
fn rfc_4231() -> Vec<(Vec<u8>, Vec<u8>)> {
    let text = |text: &str| text.as_bytes().to_vec();
    vec![
        (vec![0x0b; 20], text("Hi There")),
        (text("Jefe"), text("what do ya want for nothing?")),
        (vec![0xaa; 20], vec![0xdd; 50]),
        ((1..=25).collect(), vec![0xcd; 50]),
        (vec![0x0c; 20], text("Test With Truncation")),
        (
            vec![0xaa; 131],
            text("Test Using Larger Than Block-Size Key - Hash Key First"),
        ),
        (
            vec![0xaa; 131],
            text(
                "This is a test using a larger than block-size key and a larger than block-size \
                 data. The key needs to be hashed before being used by the HMAC algorithm.",
            ),
        ),
    ]
}
