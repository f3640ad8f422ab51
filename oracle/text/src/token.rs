//! Lines and tokens.

use crate::Place;

#[derive(Clone, Copy, Debug, PartialEq, Eq)]
pub struct Token<'a> {
    pub text: &'a [u8],
    pub place: Place,
}

/// A line's tokens, and where its end begins.
#[derive(Clone, Debug)]
pub struct Line<'a> {
    pub tokens: Vec<Token<'a>>,
    pub end: Place,
}

/// What a byte may be part of.
#[derive(Clone, Copy, PartialEq, Eq)]
enum Kind {
    Word,
    Sign,
    Alone,
}

fn kind(byte: u8) -> Kind {
    match byte {
        b'a'..=b'z' | b'A'..=b'Z' | b'0'..=b'9' | b'_' | b'.' => Kind::Word,
        b'=' | b'!' | b'<' | b'>' => Kind::Sign,
        _ => Kind::Alone,
    }
}

/// The lines that have a token, and the place of the text's end.
pub fn lines(text: &[u8]) -> (Vec<Line<'_>>, Place) {
    let mut lines = Vec::new();
    let mut number = 1;
    let mut rest = text;
    while let Some(feed) = rest.iter().position(|&byte| byte == b'\n') {
        let before = &rest[..feed];
        // A carriage return before it is the end's.
        let content = before.strip_suffix(b"\r").unwrap_or(before);
        lines.push(line(content, number));
        rest = &rest[feed + 1..];
        number += 1;
    }
    lines.push(line(rest, number));
    lines.retain(|line| !line.tokens.is_empty());
    (lines, Place { line: number, column: rest.len() as u64 + 1 })
}

/// The tokens of a line, which is given without its end.
fn line(content: &[u8], number: u64) -> Line<'_> {
    let comment = content.iter().position(|&byte| byte == b'#');
    let content = &content[..comment.unwrap_or(content.len())];
    let place = |at: usize| Place { line: number, column: at as u64 + 1 };
    let mut tokens = Vec::new();
    let mut at = 0;
    while at < content.len() {
        let first = content[at];
        if first == b' ' || first == b'\t' {
            at += 1;
            continue;
        }
        let length = match kind(first) {
            Kind::Alone => 1,
            run => content[at..].iter().take_while(|&&byte| kind(byte) == run).count(),
        };
        tokens.push(Token { text: &content[at..at + length], place: place(at) });
        at += length;
    }
    Line { tokens, end: place(content.len()) }
}
