//! Tokens of a rule text.
//!
//! The whole text is taken apart with the point as a foreign byte. Then, behind the clause of a scale, each number, point and
//! number that touch become one token, from the left.

/// The symbol of a word that is not reserved.
pub const NAME: &str = "name";
/// The symbol of a run of digits.
pub const NUMBER: &str = "number";
/// The symbol of digits, a point and digits behind the clause of a scale.
pub const DECIMAL: &str = "decimal";
/// The symbol of the word that begins that clause; the grammar says where. Everywhere else the word is a name.
pub const SCALE: &str = "scale";
/// The symbol of a byte that no rule has.
pub const STRAY: &str = "stray";

/// The words that are no names.
pub const RESERVED: [&str; 4] = ["events", "notes", "i", "abs"];

/// The marks, longer ones first.
pub const MARKS: [&str; 20] = [
    "->", "||", "&&", "!=", "<=", ">=", ";", "!", "{", "}", "=", "<", ">", "+", "-", "*", "(", ")",
    "[", "]",
];

/// One token: a reserved word or a mark has its own spelling as its symbol.
#[derive(Clone, Copy, Debug, PartialEq, Eq)]
pub struct Token<'t> {
    pub symbol: &'static str,
    pub place: usize,
    pub bytes: &'t [u8],
}

impl Token<'_> {
    /// The symbols that it may stand for: a name may be the clause's word too.
    pub fn symbols(&self) -> impl Iterator<Item = &'static str> {
        let clause = self.symbol == NAME && self.bytes == SCALE.as_bytes();
        [self.symbol].into_iter().chain(clause.then_some(SCALE))
    }

    /// The place behind it.
    fn end(&self) -> usize {
        self.place + self.bytes.len()
    }
}

/// All tokens of a text, in order.
pub fn tokens(text: &[u8]) -> Vec<Token<'_>> {
    let mut found = whole_tokens(text);
    if let Some(behind) = behind_clause(&found) {
        let rest = found.split_off(behind);
        with_decimals(text, &rest, &mut found);
    }
    found
}

/// The number of the first token behind the clause of a scale. A rule has that clause behind its second ";".
fn behind_clause(tokens: &[Token]) -> Option<usize> {
    let ends = |k: &usize| tokens[*k].symbol == ";";
    let notes_end = (0..tokens.len()).filter(ends).nth(1)?;
    match &tokens[notes_end + 1..] {
        [word, number, end, ..]
            if word.bytes == SCALE.as_bytes() && number.symbol == NUMBER && end.symbol == ";" =>
        {
            Some(notes_end + 4)
        }
        _ => None,
    }
}

/// Adds tokens, those that touch around a point as one.
fn with_decimals<'t>(text: &'t [u8], mut tokens: &[Token<'t>], found: &mut Vec<Token<'t>>) {
    while let [token, rest @ ..] = tokens {
        let (joined, rest) = match rest {
            [point, part, rest @ ..]
                if [token.symbol, part.symbol] == [NUMBER; 2]
                    && point.bytes == b"."
                    && [token.end(), point.end()] == [point.place, part.place] =>
            {
                let bytes = &text[token.place..part.end()];
                let joined = Token {
                    symbol: DECIMAL,
                    place: token.place,
                    bytes,
                };
                (joined, rest)
            }
            _ => (*token, rest),
        };
        found.push(joined);
        tokens = rest;
    }
}

/// All tokens of a text, in order, with no decimals.
fn whole_tokens(text: &[u8]) -> Vec<Token<'_>> {
    let mut found = Vec::new();
    let mut place = 0;
    while place < text.len() {
        let rest = &text[place..];
        if matches!(rest[0], b' ' | b'\n') {
            place += 1;
            continue;
        }
        let (symbol, length) = first_token(rest);
        let bytes = &rest[..length];
        found.push(Token {
            symbol,
            place,
            bytes,
        });
        place += length;
    }
    found
}

/// The symbol and the length of the token at the front of a text that begins with no blank.
fn first_token(rest: &[u8]) -> (&'static str, usize) {
    let letters = run(rest, |byte| byte.is_ascii_lowercase());
    if letters > 0 {
        let word = &rest[..letters];
        let reserved = RESERVED.into_iter().find(|known| known.as_bytes() == word);
        return (reserved.unwrap_or(NAME), letters);
    }
    let digits = run(rest, |byte| byte.is_ascii_digit());
    if digits > 0 {
        return (NUMBER, digits);
    }
    match MARKS
        .into_iter()
        .find(|mark| rest.starts_with(mark.as_bytes()))
    {
        Some(mark) => (mark, mark.len()),
        None => (STRAY, 1),
    }
}

/// How many bytes at the front pass a test.
fn run(rest: &[u8], test: impl Fn(u8) -> bool) -> usize {
    rest.iter().take_while(|byte| test(**byte)).count()
}
