//! The words of a line.

use crate::code::Plain;

pub type Word<'t> = &'t [u8];

const LONGEST_NAME: usize = 32;

/// The words of a line, without a comment.
pub fn words_of(line: &[u8]) -> impl Iterator<Item = Word<'_>> {
    let words = line.split(|byte| matches!(byte, b'\t' | b'\r' | b' ')).filter(|word| !word.is_empty());
    words.take_while(|word| word[0] != b'#')
}

/// Whether a word may name something, in scripts of both versions.
pub fn is_name(word: Word) -> bool {
    word.len() <= LONGEST_NAME
        && word[0].is_ascii_alphabetic()
        && word.iter().all(|byte| byte.is_ascii_alphanumeric() || *byte == b'_')
        && !is_reserved(word)
}

fn is_reserved(word: Word) -> bool {
    matches!(
        word,
        b"cell"
            | b"set"
            | b"max"
            | b"map"
            | b"pair"
            | b"pool"
            | b"proc"
            | b"end"
            | b"let"
            | b"put"
            | b"get"
            | b"any"
            | b"in"
            | b"has"
            | b"least"
            | b"fork"
            | b"call"
            | b"handle"
            | b"freeze"
            | b"after"
            | b"each"
            | b"if"
            | b"else"
            | b"while"
    )
}

pub fn plain(word: Word) -> Option<Plain> {
    match word {
        b"cell" => Some(Plain::Cell),
        b"set" => Some(Plain::Set),
        b"max" => Some(Plain::Counter),
        _ => None,
    }
}

pub fn is_number_word(word: Word) -> bool {
    word[0].is_ascii_digit() || word[0] == b'-' && word.len() > 1
}

/// The number that a word spells, if it is one.
pub fn number(word: Word) -> Option<i64> {
    let (is_negative, digits) = match word {
        [b'-', digits @ ..] => (true, digits),
        digits => (false, digits),
    };
    if digits.is_empty() {
        return None;
    }
    digits.iter().try_fold(0i64, |number, byte| {
        let digit = i64::from(byte.is_ascii_digit().then(|| byte - b'0')?);
        let tens = number.checked_mul(10)?;
        if is_negative { tens.checked_sub(digit) } else { tens.checked_add(digit) }
    })
}
