//! Words, numbers and sections as a script writes them.

use crate::script::STEPS_ROOM;

/// A number: hexadecimal if it has sixteen digits, as document 01 writes a word, and else decimal.
pub fn number(word: &str) -> Option<u64> {
    let hex = word.len() == 16;
    let digit = |b: u8| b.is_ascii_digit() || hex && (b'a'..=b'f').contains(&b);
    if !word.bytes().all(digit) {
        return None;
    }
    u64::from_str_radix(word, if hex { 16 } else { 10 }).ok()
}

/// The numbers of a line, eight at most, if it has nothing else.
pub fn numbers(rest: &str) -> Option<Vec<u64>> {
    let numbers = words(rest).map(number).collect::<Option<Vec<u64>>>()?;
    (numbers.len() <= 8).then_some(numbers)
}

pub fn words(text: &str) -> impl Iterator<Item = &str> {
    text.split(' ').filter(|word| !word.is_empty())
}

/// The first word, and what is behind it.
pub fn first(text: &str) -> (&str, &str) {
    let text = text.trim_start_matches(' ');
    let end = text.find(' ').unwrap_or(text.len());
    (&text[..end], text[end..].trim_start_matches(' '))
}

/// An instruction: kind and fields, those left out 0; or its word in sixteen digits.
fn instruction(piece: &str) -> Option<u64> {
    let numbers = numbers(piece)?;
    if numbers.is_empty() || numbers.len() > 4 {
        return None;
    }
    if first(piece).0.len() == 16 {
        return (numbers.len() == 1).then_some(numbers[0]);
    }
    let field = |i: usize| u16::try_from(numbers.get(i).copied().unwrap_or(0)).ok();
    let fields = [field(0)?, field(1)?, field(2)?, field(3)?];
    Some(fields.iter().fold(0, |word, &field| word << 16 | field as u64))
}

/// A section: instructions with '/' between them, each once or as often as the number behind its '*' says.
pub fn section(rest: &str) -> Option<Vec<u64>> {
    let mut section = vec![];
    if rest.is_empty() {
        return Some(section);
    }
    for piece in rest.strip_suffix('/').unwrap_or(rest).split('/') {
        let (step, times) = match piece.split_once('*') {
            Some((step, times)) => match numbers(times)?[..] {
                [n] => (step, n),
                _ => return None,
            },
            None => (piece, 1),
        };
        let word = instruction(step)?;
        if times > (STEPS_ROOM - section.len()) as u64 {
            return None;
        }
        section.extend(std::iter::repeat_n(word, times as usize));
    }
    Some(section)
}
