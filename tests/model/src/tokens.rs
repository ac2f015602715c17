//! Reading tokens. 01: "There are five kinds of token, tried in this order".

use crate::ahead::Ahead;
use crate::answer::{Open, Refusal};
use crate::bytes::{begins_name, is_word};
use crate::marks::{Marks, Pair};

/// A token with the bytes that it gives.
#[derive(Clone, Debug, PartialEq, Eq)]
pub enum Token {
    End,
    /// Both marks are kept.
    Comment(Vec<u8>),
    /// "Only the outermost marks go".
    Quoted(Vec<u8>),
    Name(Vec<u8>),
    Byte(u8),
}

/// A token and how many bytes of the text ahead it takes.
#[derive(Clone, Debug, PartialEq, Eq)]
pub struct Read {
    pub token: Token,
    pub length: usize,
}

/// Reads the token at the front of the text ahead and takes nothing.
pub fn next(ahead: &Ahead, marks: &Marks) -> Result<Read, Refusal> {
    let Some(first) = ahead.byte(0) else {
        return Ok(read(Token::End, 0));
    };
    if let Some(comment) = &marks.comment {
        if ahead.matches(0, &comment.begin) {
            return read_comment(ahead, comment);
        }
    }
    if ahead.matches(0, &marks.quote.begin) {
        return read_quoted(ahead, &marks.quote);
    }
    if begins_name(first) {
        return Ok(read_name(ahead));
    }
    Ok(read(Token::Byte(first), 1))
}

fn read(token: Token, length: usize) -> Read {
    Read { token, length }
}

/// "from the begin-comment mark through the next end-comment mark, both kept".
fn read_comment(ahead: &Ahead, comment: &Pair) -> Result<Read, Refusal> {
    for at in comment.begin.len()..ahead.length() {
        if ahead.matches(at, &comment.end) {
            return Ok(comment_of(ahead, at + comment.end.len()));
        }
    }
    // 02, request 3: "Where the end-comment mark is a newline, the end of the text ahead closes the
    // comment too, and nothing is added. Any other end mark still refuses with detail 2." The text
    // ahead is "the pending text followed by the rest of the input": wrap text that waits is none.
    if comment.end == b"\n" {
        return Ok(comment_of(ahead, ahead.length()));
    }
    Err(Refusal::Unclosed(Open::Comment))
}

/// A comment of so many bytes.
fn comment_of(ahead: &Ahead, length: usize) -> Read {
    read(Token::Comment(ahead.copy(0, length)), length)
}

/// "from the begin-quote mark to its matching end mark. Inside, the end mark is tried first, then
/// the begin mark, which nests". A mark that is found is passed whole.
fn read_quoted(ahead: &Ahead, quote: &Pair) -> Result<Read, Refusal> {
    let front = quote.begin.len();
    let mut open = 1;
    let mut at = front;
    while at < ahead.length() {
        if ahead.matches(at, &quote.end) {
            open -= 1;
            if open == 0 {
                let inside = ahead.copy(front, at);
                return Ok(read(Token::Quoted(inside), at + quote.end.len()));
            }
            at += quote.end.len();
        } else if ahead.matches(at, &quote.begin) {
            open += 1;
            at += quote.begin.len();
        } else {
            at += 1;
        }
    }
    Err(Refusal::Unclosed(Open::Quote))
}

/// "a letter or underscore, then all letters, digits and underscores that follow".
fn read_name(ahead: &Ahead) -> Read {
    let mut length = 1;
    while ahead.byte(length).is_some_and(is_word) {
        length += 1;
    }
    read(Token::Name(ahead.copy(0, length)), length)
}

#[cfg(test)]
mod tests {
    use super::*;
    use crate::expansion::Expansion;

    fn first(text: &[u8], marks: &Marks) -> Result<Token, Refusal> {
        next(&Ahead::new(text), marks).map(|read| read.token)
    }

    #[test]
    fn the_five_kinds() {
        let marks = Marks::at_start();
        assert_eq!(first(b"", &marks), Ok(Token::End));
        assert_eq!(
            first(b"#a\nb", &marks),
            Ok(Token::Comment(b"#a\n".to_vec()))
        );
        assert_eq!(
            first(b"`a `b' c'd", &marks),
            Ok(Token::Quoted(b"a `b' c".to_vec()))
        );
        assert_eq!(first(b"a1_-", &marks), Ok(Token::Name(b"a1_".to_vec())));
        assert_eq!(first(b"1a", &marks), Ok(Token::Byte(b'1')));
    }

    fn with_comment(begin: &[u8], end: &[u8]) -> Marks {
        Marks {
            comment: Some(Pair {
                begin: begin.to_vec(),
                end: end.to_vec(),
            }),
            ..Marks::at_start()
        }
    }

    #[test]
    fn unclosed_is_refused() {
        let marks = with_comment(b"#", b";");
        let unclosed = Err(Refusal::Unclosed(Open::Comment));
        assert_eq!(first(b"#a", &marks), unclosed);
        assert_eq!(first(b"#a\n", &marks), unclosed);
        assert_eq!(first(b"##", &with_comment(b"##", b"#")), unclosed);
        assert_eq!(first(b"[a]", &with_comment(b"[", b"]]")), unclosed);
        assert_eq!(first(b"``'", &marks), Err(Refusal::Unclosed(Open::Quote)));
    }

    /// 02, request 3: "and nothing is added".
    #[test]
    fn the_end_closes_a_comment_that_a_newline_ends() {
        let start = Marks::at_start();
        assert_eq!(first(b"#", &start), Ok(Token::Comment(b"#".to_vec())));
        assert_eq!(first(b"#a", &start), Ok(Token::Comment(b"#a".to_vec())));
        let longer = with_comment(b"[[", b"\n");
        assert_eq!(first(b"[[", &longer), Ok(Token::Comment(b"[[".to_vec())));
        assert_eq!(
            first(b"[[`a#", &longer),
            Ok(Token::Comment(b"[[`a#".to_vec()))
        );
        // half a begin mark is none
        assert_eq!(first(b"[", &longer), Ok(Token::Byte(b'[')));
        // a newline that is there ends the comment; an open quote is refused as before
        assert_eq!(first(b"#a\nb", &start), first(b"#a\n", &start));
        assert_eq!(first(b"`#a", &start), Err(Refusal::Unclosed(Open::Quote)));
    }

    /// "The text ahead is the pending text followed by the rest of the input, as one string".
    #[test]
    fn the_end_is_that_of_pending_text_and_input() {
        let mut ahead = Ahead::new(b"#bc");
        ahead.push_back(&Expansion::of(b"#a"));
        let all = read(Token::Comment(b"#a#bc".to_vec()), 5);
        assert_eq!(next(&ahead, &Marks::at_start()), Ok(all.clone()));
        let across = with_comment(b"#a#", b"\n");
        assert_eq!(next(&ahead, &across), Ok(all));
    }

    #[test]
    fn the_end_mark_is_tried_first() {
        let mut marks = Marks::at_start();
        marks.quote = Pair {
            begin: b"|".to_vec(),
            end: b"|".to_vec(),
        };
        assert_eq!(first(b"|a|b|", &marks), Ok(Token::Quoted(b"a".to_vec())));
    }
}
