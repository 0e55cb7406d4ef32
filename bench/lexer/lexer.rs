// The tokens of the language by hand, in plain Rust: what the proved lexer is measured against.
// It reads a text from standard input, lexes it as many times as its argument says, and prints a sum; with 0 it
// prints every token, or the refusal.
use std::io::{BufWriter, Read, Write};

#[derive(Clone, Copy, Debug)]
pub enum TokenKind {
    Word,
    Quoted,
    Number,
    Text,
    Symbol(u8),
    Colons,
    Percents,
}

#[derive(Clone, Copy)]
pub struct Token {
    pub kind: TokenKind,
    pub start: u32,
    pub end: u32,
    pub line: u32,
}

#[derive(Debug)]
pub enum LexError {
    BadByte { line: u32 },
    OpenComment { line: u32 },
    OpenQuote { line: u32 },
    TooLong,
}

#[derive(Clone, Copy)]
enum Class {
    Letter,
    Digit,
    Symbol,
    Space,
    LineFeed,
    Opening,
    Bad,
}

const fn class_of(byte: u8) -> Class {
    match byte {
        b'a'..=b'z' | b'A'..=b'Z' | b'_' | b'$' | b'@' | b'?' | b'.' | b'`' => Class::Letter,
        b'0'..=b'9' => Class::Digit,
        b'\t' | b'\r' | b' ' => Class::Space,
        b'\n' => Class::LineFeed,
        b'"' | b'\'' | b'/' | b':' | b'%' => Class::Opening,
        b'!'..=b'~' => Class::Symbol,
        _ => Class::Bad,
    }
}

static CLASSES: [Class; 256] = {
    let mut table = [Class::Bad; 256];
    let mut byte = 0;
    while byte < 256 {
        table[byte] = class_of(byte as u8);
        byte += 1;
    }
    table
};

static RUN_BYTES: [bool; 256] = {
    let mut table = [false; 256];
    let mut byte = 0;
    while byte < 256 {
        table[byte] = matches!(CLASSES[byte], Class::Letter | Class::Digit);
        byte += 1;
    }
    table
};

fn run_end(text: &[u8], mut at: usize) -> usize {
    while at < text.len() && RUN_BYTES[text[at] as usize] {
        at += 1;
    }
    at
}

/// The place after the comment whose `/*` ends before `at`.
fn comment_end(text: &[u8], mut at: usize, line: &mut u32) -> Result<usize, LexError> {
    let opened = *line;
    loop {
        match text.get(at) {
            None => return Err(LexError::OpenComment { line: opened }),
            Some(b'*') if text.get(at + 1) == Some(&b'/') => return Ok(at + 2),
            Some(b'\n') => *line += 1,
            Some(_) => {}
        }
        at += 1;
    }
}

/// The place of the single quote that closes the one before `at`.
fn quoted_end(text: &[u8], mut at: usize, line: u32) -> Result<usize, LexError> {
    loop {
        match text.get(at) {
            None | Some(b'\n') => return Err(LexError::OpenQuote { line }),
            Some(b'\'') => return Ok(at),
            Some(b'\\') => return Err(LexError::BadByte { line }),
            Some(b' '..=b'~') => at += 1,
            Some(_) => return Err(LexError::BadByte { line }),
        }
    }
}

/// The place of the double quote that closes the one before `at`.
fn text_end(text: &[u8], mut at: usize, line: &mut u32) -> Result<usize, LexError> {
    let opened = *line;
    loop {
        match text.get(at) {
            None | Some(b'\n') => return Err(LexError::OpenQuote { line: opened }),
            Some(b'"') => return Ok(at),
            Some(b'\\') => {
                if text.get(at + 1) == Some(&b'\n') {
                    *line += 1;
                }
                at += 2;
            }
            Some(_) => at += 1,
        }
    }
}

pub fn lex(text: &[u8]) -> Result<Vec<Token>, LexError> {
    if text.len() > 4_194_304 {
        return Err(LexError::TooLong);
    }
    let mut tokens = Vec::new();
    let mut push = |kind, start: usize, end: usize, line| {
        tokens.push(Token { kind, start: start as u32, end: end as u32, line });
    };
    let mut at = if text.starts_with(b"\xef\xbb\xbf") { 3 } else { 0 };
    let mut line = 1u32;
    while at < text.len() {
        let byte = text[at];
        let start = at;
        match CLASSES[byte as usize] {
            Class::Letter => {
                at = run_end(text, at + 1);
                push(TokenKind::Word, start, at, line);
            }
            Class::Digit => {
                at = run_end(text, at + 1);
                push(TokenKind::Number, start, at, line);
            }
            Class::Symbol => {
                at += 1;
                push(TokenKind::Symbol(byte), start, at, line);
            }
            Class::Space => at += 1,
            Class::LineFeed => {
                at += 1;
                line += 1;
            }
            Class::Opening => match (byte, text.get(at + 1)) {
                (b'/', Some(b'/')) => {
                    while at < text.len() && text[at] != b'\n' {
                        at += 1;
                    }
                }
                (b'/', Some(b'*')) => at = comment_end(text, at + 2, &mut line)?,
                (b'\'', _) => {
                    at = quoted_end(text, at + 1, line)? + 1;
                    push(TokenKind::Quoted, start + 1, at - 1, line);
                }
                (b'"', _) => {
                    let opened = line;
                    at = text_end(text, at + 1, &mut line)? + 1;
                    push(TokenKind::Text, start + 1, at - 1, opened);
                }
                (b':', Some(b':')) => {
                    at += 2;
                    push(TokenKind::Colons, start, at, line);
                }
                (b'%', Some(b'%')) => {
                    at += 2;
                    push(TokenKind::Percents, start, at, line);
                }
                _ => {
                    at += 1;
                    push(TokenKind::Symbol(byte), start, at, line);
                }
            },
            Class::Bad => return Err(LexError::BadByte { line }),
        }
    }
    Ok(tokens)
}

fn sum_of(text: &[u8]) -> u64 {
    match lex(text) {
        Ok(tokens) => {
            let last = tokens.last().map_or(0, |token| u64::from(token.end) + u64::from(token.line));
            tokens.len() as u64 + last
        }
        Err(_) => 0,
    }
}

fn print_tokens(text: &[u8]) -> std::io::Result<()> {
    let mut out = BufWriter::new(std::io::stdout().lock());
    match lex(text) {
        Ok(tokens) => {
            for token in &tokens {
                writeln!(out, "{:?} {} {} {}", token.kind, token.start, token.end, token.line)?;
            }
        }
        Err(refusal) => writeln!(out, "{refusal:?}")?,
    }
    out.flush()
}

fn main() -> std::io::Result<()> {
    let rounds: u32 = std::env::args().nth(1).and_then(|word| word.parse().ok()).unwrap_or(1);
    let mut text = Vec::new();
    std::io::stdin().read_to_end(&mut text)?;
    if rounds == 0 {
        return print_tokens(&text);
    }
    let mut sum = 0u64;
    for _ in 0..rounds {
        sum = sum.wrapping_add(sum_of(std::hint::black_box(&text)));
    }
    println!("{sum}");
    Ok(())
}
