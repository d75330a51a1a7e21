//! Classes of bytes and tokens (docs/FORMAT.md, 'The class of a byte' and 'Tokens').

use crate::faults::{Cause, Fault};

#[derive(Clone, Copy, Debug, PartialEq, Eq)]
pub enum Class {
    Space,
    Special,
    Letter,
    Other,
    Bad,
}

pub fn class_of(byte: u8) -> Class {
    match byte {
        b' ' | b'\n' => Class::Space,
        b'\\' | b'{' | b'}' | b'&' | b'#' => Class::Special,
        b'A'..=b'Z' | b'a'..=b'z' => Class::Letter,
        b'$' | b'%' | b'^' | b'_' | b'~' => Class::Bad,
        33..=126 => Class::Other,
        _ => Class::Bad,
    }
}

#[derive(Clone, Copy, Debug, PartialEq, Eq)]
pub enum Control {
    Kern,
    Hfil,
    Tabskip,
    Cr,
    Omit,
    Span,
    Noalign,
    Hrule,
    Vskip,
}

#[derive(Clone, Copy, Debug, PartialEq, Eq)]
pub enum Token {
    End,
    Space,
    /// Where the word's bytes stand; of an escaped byte that is behind the backslash.
    Word { place: usize, len: usize },
    Control(Control),
    Ampersand,
    Hash,
    OpenBrace,
    CloseBrace,
}

#[derive(Clone, Copy, Debug, PartialEq, Eq)]
pub struct Lexeme {
    pub token: Token,
    pub end: usize,
}

pub const LONGEST_WORD: usize = 255;

/// The token at a place, and the place behind it.
pub fn token_at(text: &[u8], place: usize) -> Result<Lexeme, Fault> {
    let Some(&byte) = text.get(place) else {
        return Ok(Lexeme { token: Token::End, end: place });
    };
    let single = |token| Ok(Lexeme { token, end: place + 1 });
    match class_of(byte) {
        Class::Space => Ok(Lexeme { token: Token::Space, end: spaces_end(text, place) }),
        Class::Letter | Class::Other => word_at(text, place),
        Class::Bad => Err(Cause::BadByte.at(place)),
        Class::Special => match byte {
            b'&' => single(Token::Ampersand),
            b'#' => single(Token::Hash),
            b'{' => single(Token::OpenBrace),
            b'}' => single(Token::CloseBrace),
            _ => behind_backslash(text, place),
        },
    }
}

/// The place behind the longest run of space bytes.
pub fn spaces_end(text: &[u8], place: usize) -> usize {
    run_end(text, place, |b| class_of(b) == Class::Space)
}

/// The place behind the longest run of bytes that pass a test.
pub fn run_end(text: &[u8], place: usize, passes: impl Fn(u8) -> bool) -> usize {
    let mut end = place;
    while text.get(end).is_some_and(|&b| passes(b)) {
        end += 1;
    }
    end
}

fn word_at(text: &[u8], place: usize) -> Result<Lexeme, Fault> {
    let end = run_end(text, place, |b| matches!(class_of(b), Class::Letter | Class::Other));
    let len = end - place;
    if len > LONGEST_WORD {
        return Err(Cause::WordLength.at(place));
    }
    Ok(Lexeme { token: Token::Word { place, len }, end })
}

fn behind_backslash(text: &[u8], place: usize) -> Result<Lexeme, Fault> {
    let behind = place + 1;
    match text.get(behind) {
        Some(b'&' | b'#' | b'$' | b'%' | b'_' | b'{' | b'}') => {
            Ok(Lexeme { token: Token::Word { place: behind, len: 1 }, end: behind + 1 })
        }
        _ => control_at(text, place),
    }
}

fn control_at(text: &[u8], place: usize) -> Result<Lexeme, Fault> {
    let end = run_end(text, place + 1, |b| class_of(b) == Class::Letter);
    let letters = text.get(place + 1..end).unwrap_or(&[]);
    match spelled(letters) {
        Some(control) => Ok(Lexeme { token: Token::Control(control), end: spaces_end(text, end) }),
        None => Err(Cause::UnknownControl.at(place)),
    }
}

fn spelled(letters: &[u8]) -> Option<Control> {
    Some(match letters {
        b"kern" => Control::Kern,
        b"hfil" => Control::Hfil,
        b"tabskip" => Control::Tabskip,
        b"cr" => Control::Cr,
        b"omit" => Control::Omit,
        b"span" => Control::Span,
        b"noalign" => Control::Noalign,
        b"hrule" => Control::Hrule,
        b"vskip" => Control::Vskip,
        _ => return None,
    })
}

#[cfg(test)]
mod tests {
    use super::*;

    fn tokens(text: &[u8]) -> Result<Vec<Token>, Fault> {
        let mut place = 0;
        let mut found = vec![];
        loop {
            let lexeme = token_at(text, place)?;
            if lexeme.token == Token::End {
                return Ok(found);
            }
            found.push(lexeme.token);
            place = lexeme.end;
        }
    }

    #[test]
    fn classes_by_the_table() {
        let count = |class| (0..=255u8).filter(|&b| class_of(b) == class).count();
        assert_eq!(count(Class::Space), 2);
        assert_eq!(count(Class::Special), 5);
        assert_eq!(count(Class::Letter), 52);
        assert_eq!(count(Class::Other), 94 - 52 - 5 - 5);
        for b in [36, 37, 94, 95, 126, 0, 9, 11, 31, 127, 128, 255] {
            assert_eq!(class_of(b), Class::Bad, "{b}");
        }
    }

    #[test]
    fn words_and_escapes() {
        let word = |place, len| Token::Word { place, len };
        assert_eq!(tokens(b"a\\&b").unwrap(), [word(0, 1), word(2, 1), word(3, 1)]);
        assert_eq!(tokens(b"\\$ x").unwrap(), [word(1, 1), Token::Space, word(3, 1)]);
        assert_eq!(token_at(b"ab1-", 0).unwrap(), Lexeme { token: word(0, 4), end: 4 });
        assert_eq!(token_at(&[b'a'; 255], 0).unwrap().end, 255);
        assert_eq!(token_at(&[b'a'; 256], 0), Err(Cause::WordLength.at(0)));
        assert_eq!(token_at(b"a", 5).unwrap(), Lexeme { token: Token::End, end: 5 });
    }

    #[test]
    fn control_words() {
        let control = Token::Control;
        assert_eq!(tokens(b"\\cr1").unwrap(), [control(Control::Cr), Token::Word { place: 3, len: 1 }]);
        assert_eq!(token_at(b"\\cr \n x", 0).unwrap().end, 6);
        for text in [&b"\\crab"[..], b"\\Cr", b"\\", b"\\ cr", b"\\1", b"\\\\", b"\\^", b"\\~", b"\\\x80", b"\\c"] {
            assert_eq!(token_at(text, 0), Err(Cause::UnknownControl.at(0)), "{text:?}");
        }
        let all = tokens(b"\\kern\\hfil\\tabskip\\cr\\omit\\span\\noalign\\hrule\\vskip").unwrap();
        assert_eq!(all.len(), 9);
        assert_eq!(tokens(b" \n &#{}").unwrap().len(), 5);
        assert_eq!(token_at(b"x%", 1), Err(Cause::BadByte.at(1)));
    }
}
