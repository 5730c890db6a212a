//! A line of text in tokens: words, and the signs `=> = , [ ] { } ( )` by
//! themselves. `#` starts a comment.

/// The signs that stand by themselves.
const SIGNS: &str = "=,[]{}()";

/// Something wrong with a line, at a column.
#[derive(Clone, Debug, PartialEq, Eq)]
pub struct Wrong {
    pub column: usize,
    pub message: String,
}

/// At a column, this is wrong.
pub fn wrong<T>(column: usize, message: impl Into<String>) -> Result<T, Wrong> {
    Err(Wrong { column, message: message.into() })
}

#[derive(Clone, Debug, PartialEq, Eq)]
pub struct Token {
    pub text: String,
    pub column: usize,
}

/// The tokens of a line.
pub fn tokens(line: &str) -> Vec<Token> {
    let characters: Vec<char> = line.chars().take_while(|&c| c != '#').collect();
    let mut tokens = Vec::new();
    let mut place = 0;
    while place < characters.len() {
        let length = token_length(&characters[place..]);
        if length > 0 {
            let text = characters[place..place + length].iter().collect();
            tokens.push(Token { text, column: place + 1 });
        }
        place += length.max(1);
    }
    tokens
}

/// How long the token is that the characters begin with; 0 for white space.
fn token_length(characters: &[char]) -> usize {
    let is_sign = |c: char| SIGNS.contains(c);
    match characters {
        ['=', '>', ..] => 2,
        [sign, ..] if is_sign(*sign) => 1,
        _ => characters.iter().take_while(|&&c| !c.is_whitespace() && !is_sign(c)).count(),
    }
}

/// Reads the tokens of a line one after the other.
#[derive(Clone, Debug)]
pub struct Cursor<'a> {
    tokens: &'a [Token],
    end: usize,
}

impl<'a> Cursor<'a> {
    pub fn new(tokens: &'a [Token]) -> Cursor<'a> {
        Cursor::behind(1, tokens)
    }

    /// Of the tokens behind a column, of which there may be none.
    pub fn behind(column: usize, tokens: &'a [Token]) -> Cursor<'a> {
        let end = tokens.last().map_or(column, |last| last.column + last.text.chars().count());
        Cursor { tokens, end }
    }

    pub fn peek(&self) -> Option<&'a str> {
        self.tokens.first().map(|token| token.text.as_str())
    }

    /// The token after the next one.
    pub fn second(&self) -> Option<&'a str> {
        self.tokens.get(1).map(|token| token.text.as_str())
    }

    /// The column of the next token, or of the line's end.
    pub fn column(&self) -> usize {
        self.tokens.first().map_or(self.end, |token| token.column)
    }

    pub fn is_done(&self) -> bool {
        self.tokens.is_empty()
    }

    pub fn advance(&mut self) -> Option<&'a Token> {
        let (first, rest) = self.tokens.split_first()?;
        self.tokens = rest;
        Some(first)
    }

    /// Takes the next token if it is this word, whatever its capitals.
    pub fn takes(&mut self, word: &str) -> bool {
        let is_it = self.peek().is_some_and(|next| next.eq_ignore_ascii_case(word));
        if is_it {
            self.advance();
        }
        is_it
    }

    /// The next token must be this.
    pub fn needs(&mut self, word: &str) -> Result<(), Wrong> {
        if self.takes(word) {
            return Ok(());
        }
        wrong(self.column(), format!("'{word}' is expected here, {}", self.found()))
    }

    /// The next token, which must be there.
    pub fn needs_any(&mut self, what: &str) -> Result<&'a Token, Wrong> {
        let column = self.column();
        self.advance().map_or_else(|| wrong(column, format!("{what} is expected here")), Ok)
    }

    /// A number in decimal, or in hexadecimal after 0x.
    pub fn needs_number(&mut self, what: &str, most: u32) -> Result<u32, Wrong> {
        let token = self.needs_any(what)?;
        let allowed = format!("0 to {most} is allowed");
        match number(&token.text) {
            None => {
                wrong(token.column, format!("{what}: '{}' is no number; {allowed}", token.text))
            }
            Some(value) if value > u128::from(most) => {
                wrong(token.column, format!("{what}: {} is too large; {allowed}", token.text))
            }
            Some(value) => Ok(value as u32),
        }
    }

    pub fn needs_end(&self) -> Result<(), Wrong> {
        match self.peek() {
            None => Ok(()),
            Some(text) => wrong(
                self.column(),
                format!("'{text}' is not expected here: the line should end before it"),
            ),
        }
    }

    fn found(&self) -> String {
        self.peek().map_or("and the line ends".to_string(), |text| format!("and not '{text}'"))
    }
}

/// Digits in decimal, or in hexadecimal after 0x; none that are too many for any
/// field.
pub fn number(word: &str) -> Option<u128> {
    let lower = word.to_ascii_lowercase();
    let (digits, base) = match lower.strip_prefix("0x") {
        Some(digits) => (digits, 16),
        None => (lower.as_str(), 10),
    };
    if digits.is_empty() || !digits.chars().all(|digit| digit.is_digit(base)) {
        return None;
    }
    // more digits than any number has that fits somewhere
    Some(u128::from_str_radix(digits, base).unwrap_or(u128::MAX))
}
