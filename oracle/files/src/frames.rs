//! Files one after another in a stream of bytes: for each its word count,
//! then its words, all as little-endian u32.

use std::io::{Error, ErrorKind, Read, Result, Write};

/// The next file of `input`, or `None` at the end.
pub fn read(input: &mut impl Read) -> Result<Option<Vec<u32>>> {
    let Some(count) = read_count(input)? else {
        return Ok(None);
    };
    // The bytes are taken as they come, so that a count past the end of the
    // input reserves no memory of its own.
    let expected = u64::from(count) * 4;
    let mut bytes = Vec::new();
    input.by_ref().take(expected).read_to_end(&mut bytes)?;
    if (bytes.len() as u64) < expected {
        return Err(truncated(&format!(
            "a frame of {count} words ends after {} of its {expected} bytes",
            bytes.len()
        )));
    }
    Ok(Some(words(&bytes)))
}

/// The four bytes of a word count, or `None` where the input ends before
/// the first of them.
fn read_count(input: &mut impl Read) -> Result<Option<u32>> {
    let mut bytes = Vec::new();
    input.by_ref().take(4).read_to_end(&mut bytes)?;
    match bytes.len() {
        0 => Ok(None),
        4 => Ok(Some(words(&bytes)[0])),
        length => Err(truncated(&format!(
            "the input ends after {length} of the 4 bytes of a word count"
        ))),
    }
}

fn truncated(message: &str) -> Error {
    Error::new(ErrorKind::UnexpectedEof, message.to_string())
}

/// Bytes as little-endian words.
fn words(bytes: &[u8]) -> Vec<u32> {
    bytes
        .chunks_exact(4)
        .map(|word| u32::from_le_bytes(word.try_into().expect("four bytes")))
        .collect()
}

/// Writes `words` as one frame.
pub fn write(output: &mut impl Write, words: &[u32]) -> Result<()> {
    let mut bytes = Vec::with_capacity(4 * (words.len() + 1));
    bytes.extend_from_slice(&(words.len() as u32).to_le_bytes());
    for word in words {
        bytes.extend_from_slice(&word.to_le_bytes());
    }
    output.write_all(&bytes)
}

#[cfg(test)]
mod tests {
    use super::*;

    #[test]
    fn read_when_frames_written_then_same_words() {
        let mut bytes = Vec::new();
        write(&mut bytes, &[1, 2, u32::MAX]).unwrap();
        write(&mut bytes, &[]).unwrap();
        let mut input = bytes.as_slice();
        assert_eq!(read(&mut input).unwrap(), Some(vec![1, 2, u32::MAX]));
        assert_eq!(read(&mut input).unwrap(), Some(vec![]));
        assert_eq!(read(&mut input).unwrap(), None);
    }

    #[test]
    fn read_when_truncated_then_error() {
        let mut bytes = Vec::new();
        write(&mut bytes, &[1, 2]).unwrap();
        for length in 1..bytes.len() {
            assert!(read(&mut &bytes[..length]).is_err(), "{length}");
        }
        assert!(read(&mut [255; 9].as_slice()).is_err());
    }
}
