//! The words of a text: operators, whole numbers and names.

use crate::fault::Spot;

/// The operators by their words and bytes. Literals and channels have no words of their own.
pub const OPERATORS: [(&str, u8); 11] = [
    ("+", 3),
    ("-", 4),
    ("*", 5),
    ("neg", 6),
    ("false", 16),
    ("true", 17),
    ("not", 18),
    ("and", 19),
    ("or", 20),
    ("<", 21),
    ("=", 22),
];

/// The bytes before which a literal, an own and a far channel stand.
pub const LITERAL: u8 = 0;
pub const OWN: u8 = 1;
pub const FAR: u8 = 2;

/// What a far channel's name has in front.
pub const FAR_PREFIX: &str = "far.";

/// What begins a comment.
pub const COMMENT: char = '#';

/// The byte of an operator.
pub fn operator_byte(word: &str) -> Option<u8> {
    OPERATORS.iter().find(|(known, _)| *known == word).map(|&(_, byte)| byte)
}

/// The word of an operator.
pub fn operator_word(byte: u8) -> Option<&'static str> {
    OPERATORS.iter().find(|&&(_, known)| known == byte).map(|&(word, _)| word)
}

/// The words of an expression's bytes: each operator, and the bytes of its literal or channel.
pub fn pieces(expression: &[u8]) -> Vec<(u8, &[u8])> {
    let mut pieces = Vec::new();
    let mut rest = expression;
    while let [operator, behind @ ..] = rest {
        let length = match *operator {
            LITERAL => 4,
            OWN | FAR => 1,
            _ => 0,
        };
        let (own, further) = behind.split_at(length.min(behind.len()));
        pieces.push((*operator, own));
        rest = further;
    }
    pieces
}

/// A word of a line, with the column of its first character, counted from 0.
#[derive(Clone, Copy, Debug, PartialEq, Eq)]
pub struct Word<'a> {
    pub text: &'a str,
    pub column: usize,
}

/// The spot of a word; behind the last word where there are fewer.
pub fn spot(line: usize, words: &[Word], index: usize) -> Spot {
    let width = |word: &Word| word.text.chars().count();
    match (words.get(index), words.last()) {
        (Some(word), _) => Spot { line, column: word.column, width: width(word) },
        (None, Some(last)) => Spot { line, column: last.column + width(last) + 1, width: 1 },
        (None, None) => Spot { line, column: 0, width: 1 },
    }
}

/// The words of a line in front of its comment. `#` stands for itself as the label right behind `channel`.
pub fn words(line: &str) -> Vec<Word<'_>> {
    let mut words: Vec<Word> = Vec::new();
    let mut rest = line;
    let mut column = 0;
    loop {
        let spaces = rest.len() - rest.trim_start().len();
        column += rest[..spaces].chars().count();
        rest = &rest[spaces..];
        let end = rest.find(char::is_whitespace).unwrap_or(rest.len());
        let is_label = &rest[..end] == "#" && words.len() == 1 && words[0].text == "channel";
        let length = rest[..end].find(COMMENT).filter(|_| !is_label).unwrap_or(end);
        if length > 0 {
            words.push(Word { text: &rest[..length], column });
        }
        if length < end || rest.is_empty() {
            return words;
        }
        column += rest[..end].chars().count();
        rest = &rest[end..];
    }
}

/// A whole number of 32 bits, or why the word is none; nothing where it does not look like a number.
pub fn whole_number(word: &str) -> Option<Result<i32, String>> {
    let digits = word.strip_prefix('-').unwrap_or(word);
    if !digits.starts_with(|first: char| first.is_ascii_digit()) {
        return None;
    }
    if digits.bytes().all(|byte| byte.is_ascii_digit()) {
        let fits = word.parse().map_err(|_| format!("`{word}` does not fit 32 bits"));
        return Some(fits);
    }
    let pointed = digits.bytes().all(|byte| byte.is_ascii_digit() || byte == b'.' || byte == b',');
    Some(Err(if pointed {
        format!("`{word}` has a point: values are whole numbers")
    } else {
        format!("`{word}` is no whole number")
    }))
}

/// Why a word cannot be a name; nothing where it can.
pub fn not_a_name(word: &str) -> Option<String> {
    if operator_byte(word).is_some() {
        return Some(format!("`{word}` is an operator and cannot be a name"));
    }
    if whole_number(word).is_some() {
        return Some(format!("`{word}` begins like a number and cannot be a name"));
    }
    let allowed = |letter: char| letter.is_alphanumeric() || letter == '_' || letter == '-';
    let begins = word.starts_with(|first: char| first.is_alphabetic() || first == '_');
    if begins && word.chars().all(allowed) {
        return None;
    }
    Some(format!("`{word}` cannot be a name: a name is a letter or `_`, then letters, digits, `_` and `-`"))
}

#[cfg(test)]
mod tests {
    use super::*;

    fn texts(line: &str) -> Vec<&str> {
        words(line).into_iter().map(|word| word.text).collect()
    }

    #[test]
    fn comments_begin_anywhere_but_at_a_label() {
        assert_eq!(texts("  set a = b # why"), ["set", "a", "=", "b"]);
        assert_eq!(texts("set a = b#why"), ["set", "a", "=", "b"]);
        assert_eq!(texts("channel # hash # a comment"), ["channel", "#", "hash"]);
        assert_eq!(texts("channel #hash"), ["channel"]);
        assert_eq!(texts("# channel a b"), [] as [&str; 0]);
        assert_eq!(texts("  \t"), [] as [&str; 0]);
    }

    #[test]
    fn columns_count_characters() {
        let line = words("\té ab");
        assert_eq!((line[0].column, line[1].column), (1, 3));
    }

    #[test]
    fn numbers_fit_or_say_why() {
        assert_eq!(whole_number("-2147483648"), Some(Ok(i32::MIN)));
        assert_eq!(whole_number("007"), Some(Ok(7)));
        assert_eq!(whole_number("2147483648"), Some(Err("`2147483648` does not fit 32 bits".into())));
        assert_eq!(whole_number("1.5"), Some(Err("`1.5` has a point: values are whole numbers".into())));
        assert_eq!(whole_number("12a"), Some(Err("`12a` is no whole number".into())));
        assert_eq!(whole_number("-"), None);
        assert_eq!(whole_number("bend"), None);
    }

    #[test]
    fn names_are_letters_first() {
        for name in ["bend", "_x", "left-knee", "Ünder", "a1", "when"] {
            assert_eq!(not_a_name(name), None);
        }
        for word in ["neg", "-", "1", "-x", "a.b", "far.a", ""] {
            assert!(not_a_name(word).is_some(), "{word}");
        }
    }
}
