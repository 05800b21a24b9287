//! SHA-256 and HMAC: the examples of FIPS 180-4 and RFC 4231, and the limits on lengths.

use second::hmac::{hmac, lengths_in_range};
use second::sha256::{length_in_range, sha256, ROUND_CONSTANTS};

fn hex(bytes: &[u8]) -> String {
    bytes.iter().map(|byte| format!("{byte:02x}")).collect()
}

fn hash(message: &[u8]) -> String {
    hex(&sha256(message).unwrap())
}

#[test]
fn fips_180_4_examples() {
    let two_blocks = "abcdbcdecdefdefgefghfghighijhijkijkljklmklmnlmnomnopnopq";
    let long = "abcdefghbcdefghicdefghijdefghijkefghijklfghijklmghijklmn\
                hijklmnoijklmnopjklmnopqklmnopqrlmnopqrsmnopqrstnopqrstu";
    let cases: [(&[u8], &str); 5] = [
        (
            b"",
            "e3b0c44298fc1c149afbf4c8996fb92427ae41e4649b934ca495991b7852b855",
        ),
        (
            b"abc",
            "ba7816bf8f01cfea414140de5dae2223b00361a396177a9cb410ff61f20015ad",
        ),
        (
            two_blocks.as_bytes(),
            "248d6a61d20638b8e5c026930c3e6039a33ce45964ff2167f6ecedd419db06c1",
        ),
        (
            long.as_bytes(),
            "cf5b16a778af8380036ce59e7b0492370b249b11e8f07a51afac45037afee9d1",
        ),
        (
            &[b'a'; 1_000_000],
            "cdc76e5c9914fb9281a1c7e284d73e67f1809a48a497200e046d39ccc7112cd0",
        ),
    ];
    for (message, digest) in cases {
        assert_eq!(hash(message), digest);
    }
}

/// "the first thirty-two bits of the fractional parts of the cube roots of the first sixty-four
/// prime numbers" (FIPS 180-4, 4.2.2)
#[test]
fn round_constants_are_cube_roots() {
    let primes = (2u128..).filter(|p| (2..*p).all(|d| p % d != 0)).take(64);
    for (prime, constant) in primes.zip(ROUND_CONSTANTS) {
        // the largest root with root^3 <= prime * 2^96 is the cube root of the prime times 2^32
        let cube = prime << 96;
        let mut root: u128 = 0;
        for bit in (0..36).rev() {
            let next = root | 1 << bit;
            if next * next * next <= cube {
                root = next;
            }
        }
        assert_eq!(root as u32, constant);
    }
}

#[test]
fn rfc_4231_cases() {
    let counting: Vec<u8> = (1..=25).collect();
    let large = "Test Using Larger Than Block-Size Key - Hash Key First";
    let larger = "This is a test using a larger than block-size key and a larger than \
                  block-size data. The key needs to be hashed before being used by the HMAC \
                  algorithm.";
    let cases: [(&[u8], &[u8], &str); 7] = [
        (
            &[0x0b; 20],
            b"Hi There",
            "b0344c61d8db38535ca8afceaf0bf12b881dc200c9833da726e9376c2e32cff7",
        ),
        (
            b"Jefe",
            b"what do ya want for nothing?",
            "5bdcc146bf60754e6a042426089575c75a003f089d2739839dec58b964ec3843",
        ),
        (
            &[0xaa; 20],
            &[0xdd; 50],
            "773ea91e36800e46854db8ebd09181a72959098b3ef8c122d9635514ced565fe",
        ),
        (
            &counting,
            &[0xcd; 50],
            "82558a389a443c0ea4cc819899f2083a85f0faa3e578f8077a2e3ff46729665b",
        ),
        (
            &[0x0c; 20],
            b"Test With Truncation",
            "a3b6167473100ee06e0c796c2955552b",
        ),
        (
            &[0xaa; 131],
            large.as_bytes(),
            "60e431591ee0b67f0d8a26aacbf5b77f8e0bc6213728c5140546040f0ee37f54",
        ),
        (
            &[0xaa; 131],
            larger.as_bytes(),
            "9b09ffa71b942fcb27635fbcd5b0e944bfdc63644f0713938a7f51535c3a35e2",
        ),
    ];
    for (key, message, expected) in cases {
        // case 5 is cut to 128 bits
        assert_eq!(
            hex(&hmac(key, message).unwrap())[..expected.len()],
            *expected
        );
    }
}

/// "where a hashed input, the code's own 64-byte block included, would reach 2^61 bytes, 3 is
/// returned"
#[test]
fn lengths_stay_below_the_limit() {
    let limit: u128 = 1 << 61;
    assert!(length_in_range(limit - 1));
    assert!(!length_in_range(limit));
    assert!(lengths_in_range(32, limit - 65));
    assert!(!lengths_in_range(32, limit - 64));
    assert!(lengths_in_range(limit - 1, 0));
    assert!(!lengths_in_range(limit, 0));
    assert!(lengths_in_range(64, 0) && lengths_in_range(65, 0));
}
