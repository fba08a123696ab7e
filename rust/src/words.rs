//! Words: their kinds and values, as bytes and as text.

use std::error::Error;
use std::fmt;

/// A word of this kind and value.
///
/// # Panics
///
/// If the value has more than 24 bits.
///
/// ```
/// assert_eq!(cogunwa::word(2, 10), 0x0200_000A);
/// ```
pub fn word(kind: u8, value: u32) -> u32 {
    assert!(value < 1 << 24, "a word's value has 24 bits");
    u32::from(kind) << 24 | value
}

/// A word's kind, its high byte.
///
/// ```
/// assert_eq!(cogunwa::word_kind(0x0200_000A), 2);
/// ```
pub fn word_kind(word: u32) -> u8 {
    (word >> 24) as u8
}

/// A word's value, its lower 24 bits.
///
/// ```
/// assert_eq!(cogunwa::word_value(0x0200_000A), 10);
/// ```
pub fn word_value(word: u32) -> u32 {
    word & 0xFF_FFFF
}

/// The words' bytes, four a word, low byte first.
///
/// ```
/// assert_eq!(cogunwa::bytes_of(&[0x0100_0006, 0x1C00_0000]), [6, 0, 0, 1, 0, 0, 0, 28]);
/// ```
pub fn bytes_of(words: &[u32]) -> Vec<u8> {
    words.iter().flat_map(|w| w.to_le_bytes()).collect()
}

/// The words that the bytes make; up to three bytes at the end that make no word are left out.
///
/// ```
/// assert_eq!(cogunwa::words_of(&[6, 0, 0, 1, 0, 0, 0, 28]), [0x0100_0006, 0x1C00_0000]);
/// ```
pub fn words_of(bytes: &[u8]) -> Vec<u32> {
    words(bytes).collect()
}

/// The words that the bytes make, one after the other; as [`words_of`], without a vector.
///
/// ```
/// // How many rules a pack has: the value of its one word of kind 22.
/// # let pack = cogunwa::bytes_of(&[0x01000006, 0x02000001, 0x03000000, 0x05000000, 0x16000000, 0x1C000000]);
/// let rules = cogunwa::words(&pack).find(|&word| cogunwa::word_kind(word) == 22).map(cogunwa::word_value);
/// assert_eq!(rules, Some(0));
/// ```
pub fn words(bytes: &[u8]) -> impl DoubleEndedIterator<Item = u32> + ExactSizeIterator + Clone + '_ {
    bytes.chunks_exact(4).map(|b| u32::from_le_bytes([b[0], b[1], b[2], b[3]]))
}

/// The names of a pack's relations in record order, which is the order of [`all_kinds`](crate::all_kinds).
///
/// ```
/// # let hex = include_str!(concat!(env!("CARGO_MANIFEST_DIR"), "/../examples/household.hex"));
/// // the sample, examples/household.hex
/// let words = cogunwa::words_of_hex(hex)?;
/// assert_eq!(cogunwa::relations(&words).collect::<Vec<_>>(), [9, 7]);
/// # Ok::<(), cogunwa::HexError>(())
/// ```
pub fn relations(words: &[u32]) -> impl DoubleEndedIterator<Item = u32> + Clone + '_ {
    words.iter().filter(|&&word| word_kind(word) == 6).map(|&word| word_value(word))
}

/// The names in the list whose count word is at this place of the words: the kinds of a relation's slots, from slot 0 on,
/// where [`kinds_of`](crate::kinds_of) or [`all_kinds`](crate::all_kinds) gives the place. Of a place that has no such list
/// nothing comes.
///
/// ```
/// # let hex = include_str!(concat!(env!("CARGO_MANIFEST_DIR"), "/../examples/household.hex"));
/// // the sample, examples/household.hex
/// let words = cogunwa::words_of_hex(hex)?;
/// let place = cogunwa::kinds_of(&cogunwa::bytes_of(&words), 7)?.expect("it inherits kinds");
/// assert_eq!(cogunwa::kinds_at(&words, place).collect::<Vec<_>>(), [2, 1]);
/// # Ok::<(), Box<dyn std::error::Error>>(())
/// ```
pub fn kinds_at(words: &[u32], place: usize) -> impl DoubleEndedIterator<Item = u32> + ExactSizeIterator + Clone + '_ {
    let list = match words.get(place) {
        Some(&count) if matches!(word_kind(count), 9 | 21) => {
            words.get(place + 1..place + 1 + word_value(count) as usize).unwrap_or(&[])
        }
        _ => &[],
    };
    list.iter().map(|&word| word_value(word))
}

/// Where a text stops being words of eight hexadecimal digits. Lines and columns count from 1, columns in characters.
#[derive(Clone, Debug, PartialEq, Eq, Hash)]
#[non_exhaustive]
pub struct HexError {
    /// The number of the line.
    pub line: usize,
    /// Where in the line.
    pub column: usize,
    /// What stands there, up to the next blank.
    pub found: String,
}

impl fmt::Display for HexError {
    fn fmt(&self, f: &mut fmt::Formatter<'_>) -> fmt::Result {
        let HexError { line, column, found } = self;
        write!(f, "line {line}, column {column}: expected a word of eight hexadecimal digits, found {found:?}")
    }
}

impl Error for HexError {}

/// The words of a text that writes each with eight hexadecimal digits, with blanks or line ends between. `#` starts a
/// comment, to the end of its line; line ends are of any kind; a byte order mark at the start is passed over.
///
/// # Errors
///
/// If there is anything else, with the first place where.
///
/// ```
/// let words = cogunwa::words_of_hex("01000006  # six words\r\n02000001")?;
/// assert_eq!(words, [0x0100_0006, 0x0200_0001]);
///
/// let error = cogunwa::words_of_hex("01000006\n  2000001").unwrap_err();
/// assert_eq!((error.line, error.column), (2, 3));
/// # Ok::<(), cogunwa::HexError>(())
/// ```
pub fn words_of_hex(text: &str) -> Result<Vec<u32>, HexError> {
    let text = text.strip_prefix('\u{FEFF}').unwrap_or(text);
    let mut words = vec![];
    for (number, line) in lines(text).enumerate() {
        let line = line.split('#').next().unwrap_or_default();
        for found in line.split_whitespace() {
            let plain = found.len() == 8 && found.bytes().all(|b| b.is_ascii_hexdigit());
            match u32::from_str_radix(found, 16) {
                Ok(word) if plain => words.push(word),
                _ => {
                    let before = found.as_ptr() as usize - line.as_ptr() as usize;
                    let column = 1 + line[..before].chars().count();
                    return Err(HexError { line: number + 1, column, found: found.to_owned() });
                }
            }
        }
    }
    Ok(words)
}

/// The lines of a text, whose ends are a line feed, a carriage return, or both.
fn lines(text: &str) -> impl Iterator<Item = &str> {
    text.split('\n').flat_map(|line| line.strip_suffix('\r').unwrap_or(line).split('\r'))
}

#[cfg(test)]
mod tests {
    use super::*;

    #[test]
    fn words_and_bytes() {
        assert_eq!(word(255, 0xFF_FFFF), 0xFFFF_FFFF);
        assert_eq!(bytes_of(&[0x0100_0006, 0x1CFF_FFFF]), [6, 0, 0, 1, 255, 255, 255, 28]);
        assert_eq!(words_of(&[6, 0, 0, 1, 255, 255, 255, 28, 9, 9]), [0x0100_0006, 0x1CFF_FFFF]);
        assert_eq!(words(&[6, 0, 0, 1, 9]).len(), 1);
    }

    #[test]
    fn kinds_at_places_without_a_list() {
        let words = [word(9, 2), word(10, 1), word(10, 2), word(21, 1), word(9, 3), word(8, 1)];
        let at = |place| kinds_at(&words, place).collect::<Vec<_>>();
        assert_eq!(at(0), [1, 2]);
        for place in [1, 4, 5, 6, usize::MAX] {
            assert_eq!(at(place), [], "{place}");
        }
    }

    #[test]
    fn words_of_texts() {
        let smallest = Ok(vec![0x0100_0006, 0x1CFF_FFFF]);
        let texts = [
            "01000006\n1cFFffff ",
            "\u{FEFF}01000006\r\n\r\n1CFFFFFF\r\n",
            "01000006\r1CFFFFFF",
            "#\n01000006#1\n1CFFFFFF",
        ];
        for text in texts {
            assert_eq!(words_of_hex(text), smallest, "{text:?}");
        }
        assert_eq!(words_of_hex(""), Ok(vec![]));
        assert_eq!(words_of_hex("# nothing"), Ok(vec![]));
    }

    #[test]
    fn texts_that_are_no_words() {
        let at = |text| words_of_hex(text).map_err(|e| (e.line, e.column, e.found));
        for text in [
            "0100006",
            "0100000006",
            "+1000006",
            "0100000G",
            "01000006,",
            "\u{FEFF}\u{FEFF}",
            "0100\u{0}006",
            "0x000006",
        ] {
            let found = text.strip_prefix('\u{FEFF}').unwrap_or(text).to_owned();
            assert_eq!(at(text), Err((1, 1, found)), "{text:?}");
        }
        assert_eq!(at("01000006\r\n\r\n é 02000001"), Err((3, 2, "é".to_owned())));
        assert_eq!(at("01000006\r\r 02000001 é2000001 7"), Err((3, 11, "é2000001".to_owned())));
        let said = words_of_hex("1\0").unwrap_err().to_string();
        assert_eq!(said, r#"line 1, column 1: expected a word of eight hexadecimal digits, found "1\0""#);
    }
}
