//! The words of a line: numbers and bytes, read and written.

/// Decimal digits alone, for a number of at most `most`.
pub fn number(word: &[u8], most: u64) -> Option<u64> {
    if word.is_empty() {
        return None;
    }
    let mut number: u64 = 0;
    for byte in word {
        if !byte.is_ascii_digit() {
            return None;
        }
        let digit = u64::from(byte - b'0');
        number = number.checked_mul(10)?.checked_add(digit)?;
    }
    Some(number).filter(|number| *number <= most)
}

/// `0` or `1`.
pub fn bit(word: &[u8]) -> Option<bool> {
    match word {
        b"0" => Some(false),
        b"1" => Some(true),
        _ => None,
    }
}

/// The bytes that a word spells in lower-case hex, `-` for none.
pub fn bytes(word: &[u8]) -> Option<Vec<u8>> {
    match word {
        b"-" => Some(Vec::new()),
        b"" => None,
        _ if word.len() % 2 != 0 => None,
        _ => word
            .chunks(2)
            .map(|pair| Some(16 * half(pair[0])? + half(pair[1])?))
            .collect(),
    }
}

fn half(digit: u8) -> Option<u8> {
    match digit {
        b'0'..=b'9' => Some(digit - b'0'),
        b'a'..=b'f' => Some(10 + digit - b'a'),
        _ => None,
    }
}

pub fn hex(bytes: &[u8]) -> String {
    if bytes.is_empty() {
        return "-".to_string();
    }
    let mut text = String::with_capacity(2 * bytes.len());
    for byte in bytes {
        for half in [byte >> 4, byte & 15] {
            text.push(char::from(b"0123456789abcdef"[usize::from(half)]));
        }
    }
    text
}

/// The parts of a word or a line that stand between bytes `sign`.
pub fn parts(text: &[u8], sign: u8) -> Vec<&[u8]> {
    text.split(|byte| *byte == sign).collect()
}

#[cfg(test)]
mod tests {
    use super::*;

    #[test]
    fn numbers() {
        for (word, most, answer) in [
            (&b"0"[..], 0, Some(0)),
            (b"007", 7, Some(7)),
            (b"8", 7, None),
            (b"", 7, None),
            (b"+1", 7, None),
            (b"1 ", 7, None),
            (b"18446744073709551615", u64::MAX, Some(u64::MAX)),
            (b"18446744073709551616", u64::MAX, None),
            (b"99999999999999999999999", u64::MAX, None),
        ] {
            assert_eq!(number(word, most), answer, "{word:?}");
        }
    }

    #[test]
    fn bits() {
        assert_eq!((bit(b"0"), bit(b"1")), (Some(false), Some(true)));
        for word in [&b""[..], b"2", b"00", b"01", b"-"] {
            assert_eq!(bit(word), None, "{word:?}");
        }
    }

    #[test]
    fn hex_words() {
        assert_eq!(bytes(b"-"), Some(vec![]));
        assert_eq!(bytes(b"00ff1a"), Some(vec![0, 255, 26]));
        for word in [&b""[..], b"0", b"0A", b"0g", b"--", b"000"] {
            assert_eq!(bytes(word), None, "{word:?}");
        }
        assert_eq!(hex(&[0, 255, 26]), "00ff1a");
        assert_eq!(hex(&[]), "-");
    }
}
