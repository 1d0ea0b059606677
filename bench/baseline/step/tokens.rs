//! Tokens of policies, scripts and schedules, numbers, and quoted texts.
use std::fmt;

#[derive(Clone, Copy, PartialEq, Eq, Debug)]
pub enum Kind {
    Word,
    Quoted,
    Colon,
    Comma,
    Open,
    Close,
    OpenBracket,
    CloseBracket,
    Equal,
    NotEqual,
    Less,
    Greater,
    Line,
}

#[derive(Clone, Copy)]
pub struct Token<'a> {
    pub kind: Kind,
    pub text: &'a [u8],
}

impl Token<'_> {
    pub fn is_word(&self, word: &str) -> bool {
        self.kind == Kind::Word && self.text == word.as_bytes()
    }
}

/// A text that is not made of tokens.
#[derive(Debug)]
pub struct LexError;

/// The texts that `$HOME`, `$USER` and `$CWD` stand for.
pub struct Dollars {
    pub home: Vec<u8>,
    pub user: Vec<u8>,
    pub cwd: Vec<u8>,
}

impl Default for Dollars {
    /// What they stand for without a traced process.
    fn default() -> Dollars {
        Dollars { home: b"/root".to_vec(), user: b"root".to_vec(), cwd: b"/".to_vec() }
    }
}

pub fn tokens(text: &[u8]) -> Result<Vec<Token<'_>>, LexError> {
    let mut found = Vec::new();
    let mut at = 0;
    while at < text.len() {
        let (kind, len) = match text[at] {
            b' ' | b'\t' | b'\r' => {
                at += 1;
                continue;
            }
            b'#' => {
                at += text[at..].iter().position(|&b| b == b'\n').unwrap_or(text.len() - at);
                continue;
            }
            b'\n' => (Kind::Line, 1),
            b':' => (Kind::Colon, 1),
            b',' => (Kind::Comma, 1),
            b'(' => (Kind::Open, 1),
            b')' => (Kind::Close, 1),
            b'[' => (Kind::OpenBracket, 1),
            b']' => (Kind::CloseBracket, 1),
            b'=' => (Kind::Equal, 1),
            b'<' => (Kind::Less, 1),
            b'>' => (Kind::Greater, 1),
            b'!' if text.get(at + 1) == Some(&b'=') => (Kind::NotEqual, 2),
            b'"' => (Kind::Quoted, quoted_len(&text[at..])?),
            byte if is_word_byte(byte) => {
                let len = text[at..].iter().take_while(|&&b| is_word_byte(b)).count();
                (Kind::Word, len)
            }
            _ => return Err(LexError),
        };
        found.push(Token { kind, text: &text[at..at + len] });
        at += len;
    }
    Ok(found)
}

/// Whether a text that is not empty is one word.
pub fn is_word(text: &[u8]) -> bool {
    text.iter().all(|&b| is_word_byte(b))
}

fn is_word_byte(byte: u8) -> bool {
    byte.is_ascii_alphanumeric() || b"_-./+~%".contains(&byte)
}

/// The length of the quoted text at the front, with both quotes.
fn quoted_len(text: &[u8]) -> Result<usize, LexError> {
    let mut at = 1;
    loop {
        match text.get(at) {
            None | Some(b'\n') => return Err(LexError),
            Some(b'"') => break,
            Some(b'\\') if text.get(at + 1) != Some(&b'\n') => at += 2,
            Some(_) => at += 1,
        }
    }
    let inner = &text[1..at];
    let mut i = 0;
    while i < inner.len() {
        match inner[i] {
            0 => return Err(LexError),
            b'\\' => match inner.get(i + 1) {
                Some(b'x') => {
                    if escape(&inner[i..]).is_none_or(|byte| byte == 0) {
                        return Err(LexError);
                    }
                    i += 4;
                }
                Some(0) => return Err(LexError),
                _ => i += 2,
            },
            _ => i += 1,
        }
    }
    Ok(at + 1)
}

/// The byte that `\xHH` at the front stands for.
fn escape(text: &[u8]) -> Option<u8> {
    let digit = |i: usize| char::from(*text.get(i)?).to_digit(16);
    Some((digit(2)? * 16 + digit(3)?) as u8)
}

/// What a quoted token holds.
pub fn unquote(source: &[u8], dollars: Option<&Dollars>) -> Vec<u8> {
    let mut rest = &source[1..source.len() - 1];
    let mut out = Vec::with_capacity(rest.len());
    while let Some(&byte) = rest.first() {
        let (bytes, len): (&[u8], usize) = match (byte, rest.get(1)) {
            (b'$', _) => match dollars {
                Some(d) if rest.starts_with(b"$HOME") => (&d.home, 5),
                Some(d) if rest.starts_with(b"$USER") => (&d.user, 5),
                Some(d) if rest.starts_with(b"$CWD") => (&d.cwd, 4),
                _ => (b"$", 1),
            },
            (b'\\', Some(b'"')) => (b"\"", 2),
            (b'\\', Some(b'\\')) => (b"\\", 2),
            (b'\\', Some(b'x')) => {
                out.extend(escape(rest));
                (b"", 4)
            }
            _ => (&rest[..1], 1),
        };
        out.extend_from_slice(bytes);
        rest = &rest[len..];
    }
    out
}

pub fn number(word: &[u8]) -> Option<u64> {
    let text = std::str::from_utf8(word).ok()?;
    if let Some(hex) = text.strip_prefix("0x") {
        let fits = (1..=16).contains(&hex.len()) && hex.bytes().all(|b| b.is_ascii_hexdigit());
        return if fits { u64::from_str_radix(hex, 16).ok() } else { None };
    }
    if text.bytes().all(|b| b.is_ascii_digit()) { text.parse().ok() } else { None }
}

/// A decimal number, which may have zeros in front.
pub fn decimal(word: &[u8]) -> Option<u64> {
    if word.iter().all(u8::is_ascii_digit) { number(word) } else { None }
}

pub fn mode(word: &[u8]) -> Option<u32> {
    let octal = (1..=4).contains(&word.len()) && word.iter().all(|b| (b'0'..=b'7').contains(b));
    let value = u32::from_str_radix(std::str::from_utf8(word).ok()?, 8).ok()?;
    (octal && value <= 0o777).then_some(value)
}

/// Prints bytes in the one way in which texts are quoted.
pub struct Quoted<'a>(pub &'a [u8]);

impl fmt::Display for Quoted<'_> {
    fn fmt(&self, f: &mut fmt::Formatter<'_>) -> fmt::Result {
        f.write_str("\"")?;
        for run in self.0.chunk_by(|a, b| is_plain(*a) && is_plain(*b)) {
            match run {
                [b'"'] => f.write_str("\\\"")?,
                [b'\\'] => f.write_str("\\\\")?,
                [byte] if !is_plain(*byte) => write!(f, "\\x{byte:02x}")?,
                _ => f.write_str(std::str::from_utf8(run).map_err(|_| fmt::Error)?)?,
            }
        }
        f.write_str("\"")
    }
}

fn is_plain(byte: u8) -> bool {
    matches!(byte, 0x20..=0x7e) && !matches!(byte, b'"' | b'\\' | b'$')
}
