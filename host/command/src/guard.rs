//! What stands around the words of a shelf in its file, so that a damaged file is not read as good.
//!
//! | bytes         | what                                                      |
//! |---------------|-----------------------------------------------------------|
//! | 0 to 7        | the letters `OSTRUBEL`                                    |
//! | 8 to 11       | the version, which says the form of the words             |
//! | 12 to 15      | the number N of words                                     |
//! | 16 to 15 + 4N | the words                                                 |
//! | the last four | the CRC-32 of all bytes before them, that of gzip and PNG |
//!
//! A number is four bytes with the lowest first. A CRC-32 tells every change of up to two bits, and every one within
//! four bytes. A bare file, of before there was a guard, has the words alone: its first word counts the words of a
//! sheet, and is far below that of the letters.

const MAGIC: &[u8; 8] = b"OSTRUBEL";
const VERSION_AT: usize = 8;
const COUNT_AT: usize = 12;
const WORDS_AT: usize = 16;
const WORD_BYTES: usize = 4;

/// The bytes of a guard, beside those of the words.
pub const GUARD_BYTES: usize = WORDS_AT + WORD_BYTES;

/// What the bytes of a file are, as far as the guard can tell.
#[derive(Debug, PartialEq, Eq)]
pub enum Guarded {
    /// The words are as they were written, in the form of this version.
    Sound { version: u32, words: Vec<u32> },
    /// The words alone, without a guard.
    Bare { words: Vec<u32> },
    /// Neither, and why.
    Damaged(Damage),
}

#[derive(Clone, Copy, Debug, PartialEq, Eq)]
pub enum Damage {
    /// No guard, and no whole number of words.
    NoWords,
    /// A guard, and more or fewer bytes than its number of words has.
    Length,
    /// A guard whose checksum does not fit.
    Checksum,
}

/// The bytes of a file with these words.
pub fn enclose(version: u32, words: &[u32]) -> Vec<u8> {
    let mut bytes = Vec::with_capacity(GUARD_BYTES + WORD_BYTES * words.len());
    bytes.extend_from_slice(MAGIC);
    bytes.extend_from_slice(&version.to_le_bytes());
    bytes.extend_from_slice(&(words.len() as u32).to_le_bytes());
    bytes.extend(words.iter().flat_map(|word| word.to_le_bytes()));
    bytes.extend_from_slice(&crc32(&bytes).to_le_bytes());
    bytes
}

/// Takes the bytes of a file apart.
pub fn open(bytes: &[u8]) -> Guarded {
    if !bytes.starts_with(MAGIC) {
        return match words_of(bytes) {
            Some(words) => Guarded::Bare { words },
            None => Guarded::Damaged(Damage::NoWords),
        };
    }
    if bytes.len() < GUARD_BYTES {
        return Guarded::Damaged(Damage::Length);
    }
    let (front, checksum) = bytes.split_at(bytes.len() - WORD_BYTES);
    match words_of(&front[WORDS_AT..]) {
        Some(words) if words.len() == number_at(bytes, COUNT_AT) as usize => {
            if crc32(front) == number_at(checksum, 0) {
                Guarded::Sound { version: number_at(bytes, VERSION_AT), words }
            } else {
                Guarded::Damaged(Damage::Checksum)
            }
        }
        _ => Guarded::Damaged(Damage::Length),
    }
}

fn words_of(bytes: &[u8]) -> Option<Vec<u32>> {
    let (words, rest) = bytes.as_chunks::<WORD_BYTES>();
    rest.is_empty().then(|| words.iter().map(|word| u32::from_le_bytes(*word)).collect())
}

fn number_at(bytes: &[u8], at: usize) -> u32 {
    u32::from_le_bytes([bytes[at], bytes[at + 1], bytes[at + 2], bytes[at + 3]])
}

/// The polynomial of CRC-32 with its lowest power in the highest bit.
const POLYNOMIAL: u32 = 0xEDB8_8320;

const TABLE: [u32; 256] = table();

const fn table() -> [u32; 256] {
    let mut table = [0; 256];
    let mut byte = 0;
    while byte < table.len() {
        let mut rest = byte as u32;
        let mut bit = 0;
        while bit < 8 {
            rest = if rest & 1 == 1 { rest >> 1 ^ POLYNOMIAL } else { rest >> 1 };
            bit += 1;
        }
        table[byte] = rest;
        byte += 1;
    }
    table
}

fn crc32(bytes: &[u8]) -> u32 {
    let step = |rest: u32, byte: &u8| TABLE[(rest as u8 ^ byte) as usize] ^ (rest >> 8);
    !bytes.iter().fold(u32::MAX, step)
}

#[cfg(test)]
mod tests {
    use super::*;

    const WORDS: [u32; 9] = [0, 0, 0, 0, 0, 0, 0, 0, 14_053];

    /// The check value that CRC-32 is known by.
    #[test]
    fn the_checksum_is_that_of_gzip() {
        assert_eq!((crc32(b""), crc32(b"123456789")), (0, 0xCBF4_3926));
    }

    #[test]
    fn the_layout() {
        let bytes = enclose(1, &WORDS);
        assert_eq!(bytes.len(), GUARD_BYTES + 36);
        assert_eq!(bytes[..16], *b"OSTRUBEL\x01\0\0\0\x09\0\0\0");
        assert_eq!(bytes[48..52], [0xE5, 0x36, 0, 0]);
        assert_eq!(open(&bytes), Guarded::Sound { version: 1, words: WORDS.to_vec() });
        assert_eq!(open(&bytes[16..52]), Guarded::Bare { words: WORDS.to_vec() });
    }

    /// No flipped bit, no missing end and no byte more is read as good.
    #[test]
    fn each_damage_is_told() {
        let sound = enclose(2, &WORDS);
        for bit in 0..8 * sound.len() {
            let mut bytes = sound.clone();
            bytes[bit / 8] ^= 1 << (bit % 8);
            match open(&bytes) {
                Guarded::Sound { .. } => panic!("bit {bit}"),
                // Its first word is no count of words.
                Guarded::Bare { words } => {
                    assert!(bit < 64 && words[0] > 1 << 24, "bit {bit}")
                }
                Guarded::Damaged(_) => {}
            }
        }
        for length in 0..sound.len() {
            assert!(!matches!(open(&sound[..length]), Guarded::Sound { .. }), "{length}");
        }
        assert_eq!(open(&[&sound[..], &[0]].concat()), Guarded::Damaged(Damage::Length));
        assert_eq!(open(&[&sound[..], &[0; 4]].concat()), Guarded::Damaged(Damage::Length));
        assert_eq!(open(b"OSTRUBEL"), Guarded::Damaged(Damage::Length));
        assert_eq!(open(b"a note"), Guarded::Damaged(Damage::NoWords));
    }
}
