//! A text cut into statements, and those into tokens with their columns.

use super::Mistake;

/// What a token is.
#[derive(Clone, Copy, PartialEq, Eq, Debug)]
pub enum Sort {
    /// Letters, digits and `_`, not beginning with a digit: a keyword or a name.
    Word,
    /// Digits; what follows them without a blank belongs to it, so that `24x` is one wrong number.
    Number,
    /// `:=`, `:`, `=`, `+`, `-`, `<`, `..`
    Sign,
}

#[derive(Clone, Copy, PartialEq, Eq, Debug)]
pub struct Token<'a> {
    pub sort: Sort,
    pub text: &'a str,
    /// Of its first character, from 1.
    pub column: usize,
}

/// A statement: its tokens, of which there is at least one, and where it ends.
#[derive(Clone, PartialEq, Eq, Debug)]
pub struct Statement<'a> {
    pub line: usize,
    pub tokens: Vec<Token<'a>>,
    /// The column behind its last token.
    pub end: usize,
}

const SIGNS: [&str; 7] = [":=", "..", ":", "=", "+", "-", "<"];

fn in_word(c: char) -> bool {
    c.is_alphanumeric() || c == '_'
}

/// The token that a text begins with.
fn first(text: &str) -> Option<(Sort, &str)> {
    let begins = text.chars().next()?;
    if in_word(begins) {
        let length = text.find(|c| !in_word(c)).unwrap_or(text.len());
        let sort = if begins.is_ascii_digit() { Sort::Number } else { Sort::Word };
        return Some((sort, &text[..length]));
    }
    let sign = SIGNS.iter().find(|sign| text.starts_with(**sign))?;
    Some((Sort::Sign, &text[..sign.len()]))
}

/// What may have been meant by a character that no token begins with.
fn meant(c: char) -> Option<String> {
    Some(match c {
        '\u{2212}' | '\u{2013}' => "write '-' for a difference".to_string(),
        '>' => "turn the two words round and write '<'".to_string(),
        '"' | '\'' => "names stand without quotation marks".to_string(),
        ',' => "numbers stand side by side, with blanks between them and no commas".to_string(),
        '/' => "a comment begins with '#'".to_string(),
        '*' => "there are sums and differences, and no products".to_string(),
        _ => return None,
    })
}

/// The statements of one line; what cannot be read is told once for a statement.
fn line<'a>(number: usize, text: &'a str, statements: &mut Vec<Statement<'a>>, mistakes: &mut Vec<Mistake>) {
    let mut column = 1;
    for part in text.split('#').next().unwrap_or("").split(';') {
        let (mut tokens, mut rest, mut end) = (vec![], part, column);
        while let Some(c) = rest.chars().next() {
            let length = match first(rest) {
                Some((sort, text)) => {
                    tokens.push(Token { sort, text, column });
                    end = column + text.chars().count();
                    text.len()
                }
                None if c.is_whitespace() => c.len_utf8(),
                None => {
                    let shown = if c.is_control() { c.escape_default().to_string() } else { c.to_string() };
                    let what = format!("{shown} stands in no statement");
                    mistakes.push(Mistake { line: number, column, what, meant: meant(c) });
                    tokens.clear();
                    column += rest.chars().count();
                    break;
                }
            };
            column += rest[..length].chars().count();
            rest = &rest[length..];
        }
        if !tokens.is_empty() {
            statements.push(Statement { line: number, tokens, end });
        }
        column += 1; // the `;`
    }
}

/// All statements of a text. Lines end with byte 10; a carriage return before it is a blank.
pub fn statements(text: &str) -> (Vec<Statement<'_>>, Vec<Mistake>) {
    let (mut statements, mut mistakes) = (vec![], vec![]);
    let text = text.strip_prefix('\u{feff}').unwrap_or(text);
    for (at, one) in text.split('\n').enumerate() {
        line(at + 1, one, &mut statements, &mut mistakes);
    }
    (statements, mistakes)
}

/// The text of bytes, or where they are none.
pub fn text(bytes: &[u8]) -> Result<&str, Mistake> {
    std::str::from_utf8(bytes).map_err(|error| {
        let before = String::from_utf8_lossy(&bytes[..error.valid_up_to()]);
        let line = before.matches('\n').count() + 1;
        let column = before.rsplit('\n').next().unwrap_or("").chars().count() + 1;
        let what = format!("byte {} is no text", bytes[error.valid_up_to()]);
        Mistake { line, column, what, meant: Some("save the file as UTF-8".to_string()) }
    })
}

#[cfg(test)]
mod tests {
    use super::*;

    fn texts(line: &str) -> Vec<(usize, &str)> {
        let (statements, mistakes) = statements(line);
        assert!(mistakes.is_empty());
        statements.iter().flat_map(|one| one.tokens.iter().map(|token| (token.column, token.text))).collect()
    }

    #[test]
    fn columns_count_characters() {
        let wanted = [(1, "Kõrge"), (7, ":="), (10, "word"), (15, "2"), (17, "+"), (18, "own"), (22, "0")];
        assert_eq!(texts("Kõrge := word 2 +own 0 # so"), wanted);
        assert_eq!(texts("end;  cut\r"), [(1, "end"), (7, "cut")]);
        assert_eq!(texts("with 40 .."), [(1, "with"), (6, "40"), (9, "..")]);
    }

    #[test]
    fn bytes_that_are_no_text() {
        let mistake = text(b"take 3\nd\xc3\xb6\xffrop").unwrap_err();
        assert_eq!((mistake.line, mistake.column), (2, 3));
    }

    #[test]
    fn a_strange_character_is_told_once_a_statement() {
        let (statements, mistakes) = statements("take ? ?; cut");
        assert_eq!((statements.len(), mistakes.len()), (1, 1));
        assert_eq!(statements[0].tokens[0].column, 11);
        assert_eq!(mistakes[0].column, 6);
    }
}
