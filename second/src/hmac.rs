//! HMAC-SHA-256 of RFC 2104, for keys and messages of any length, and the code of a statement.

use crate::group::KEY_WORDS;
use crate::returns::ILL_FORMED;
use crate::sha256::{length_in_range, sha256, BLOCK_BYTES, DIGEST_BYTES};

/// The group key, "top byte first".
pub type Key = [u32; KEY_WORDS];

/// Whether the hashed inputs of an HMAC stay below 2^61 bytes: the key where it is hashed, and
/// the message behind "the code's own 64-byte block".
pub fn lengths_in_range(key_bytes: u128, message_bytes: u128) -> bool {
    let key_hashed = key_bytes > BLOCK_BYTES as u128;
    (!key_hashed || length_in_range(key_bytes))
        && length_in_range(BLOCK_BYTES as u128 + message_bytes)
}

/// The key as one block: a key over 64 bytes is hashed first, and zeros are put behind it.
fn key_block(key: &[u8]) -> Result<[u8; BLOCK_BYTES], u32> {
    let mut block = [0; BLOCK_BYTES];
    if key.len() > BLOCK_BYTES {
        block[..DIGEST_BYTES].copy_from_slice(&sha256(key)?);
    } else {
        block[..key.len()].copy_from_slice(key);
    }
    Ok(block)
}

/// H((K xor opad) ‖ H((K xor ipad) ‖ message)), or 3 where a hashed input reaches 2^61 bytes.
pub fn hmac(key: &[u8], message: &[u8]) -> Result<[u8; DIGEST_BYTES], u32> {
    if !lengths_in_range(key.len() as u128, message.len() as u128) {
        return Err(ILL_FORMED);
    }
    let block = key_block(key)?;
    let mut inner: Vec<u8> = block.iter().map(|byte| byte ^ 0x36).collect();
    inner.extend_from_slice(message);
    let mut outer: Vec<u8> = block.iter().map(|byte| byte ^ 0x5c).collect();
    outer.extend_from_slice(&sha256(&inner)?);
    sha256(&outer)
}

/// The bytes of words, "top byte first throughout".
pub fn bytes_of(words: &[u32]) -> Vec<u8> {
    words.iter().flat_map(|word| word.to_be_bytes()).collect()
}

/// "the code, HMAC-SHA-256 under the 32-byte group key over the 8 bytes of words 0 and 1"
pub fn code(key: &Key, word0: u32, word1: u32) -> [u32; 8] {
    let digest = hmac(&bytes_of(key), &bytes_of(&[word0, word1])).expect("8 bytes are hashed");
    let mut words = [0; 8];
    for (word, bytes) in words.iter_mut().zip(digest.chunks_exact(4)) {
        *word = u32::from_be_bytes([bytes[0], bytes[1], bytes[2], bytes[3]]);
    }
    words
}
