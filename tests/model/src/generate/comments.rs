//! Texts with a comment that no end mark closes, made of a place, of marks, of what the comment holds
//! and of what stands behind that.

mod places;

pub use places::{Place, PLACES};

/// What becomes of a comment at the end of the text ahead.
#[derive(Clone, Copy, Debug, PartialEq, Eq)]
pub enum Outcome {
    /// The end closes it.
    Closed,
    /// It is refused.
    Refused,
    /// It is none: comments are off.
    Off,
    /// It is none: the mark begins a quote.
    Quote,
}

/// Marks, and the calls that set them.
#[derive(Clone, Copy, Debug)]
pub struct Marks {
    calls: &'static str,
    begin: &'static str,
    end: &'static str,
    pub outcome: Outcome,
}

impl Marks {
    /// Whether the begin mark has more than one byte.
    pub fn is_long(&self) -> bool {
        self.begin.len() > 1
    }
}

const fn marks(
    calls: &'static str,
    begin: &'static str,
    end: &'static str,
    outcome: Outcome,
) -> Marks {
    Marks {
        calls,
        begin,
        end,
        outcome,
    }
}

const BOTH: &str = "changecom({@},{E})";
/// In the calls `@` stands for the begin mark, `E` for the end mark, `{` and `}` for quote marks.
pub const MARKS: [Marks; 23] = [
    // a newline ends comments: from the start, by one argument, given, or again
    marks("", "#", "\n", Outcome::Closed),
    marks("changecom({@})", "%", "\n", Outcome::Closed),
    marks("changecom({@})", "%%%", "\n", Outcome::Closed),
    marks(BOTH, "%", "\n", Outcome::Closed),
    marks(BOTH, "<!-->", "\n", Outcome::Closed),
    marks(
        "changecom({%},{;})changecom({@})",
        "#",
        "\n",
        Outcome::Closed,
    ),
    marks(
        "changecom{}changecom({@},{E})",
        "\u{0}",
        "\n",
        Outcome::Closed,
    ),
    // another mark does
    marks(BOTH, "#", ";", Outcome::Refused),
    marks(BOTH, "%", ";;", Outcome::Refused),
    marks(BOTH, "<!--", "--", Outcome::Refused),
    marks(BOTH, "%", "%", Outcome::Refused),
    marks(BOTH, "%%", "%", Outcome::Refused),
    marks(BOTH, "%", "\r", Outcome::Refused),
    marks(
        "changecom({@})changecom({@},{E})",
        "#",
        "'",
        Outcome::Refused,
    ),
    // quotes that begin like comments, which are tried first
    marks(
        "changecom({@})changequote({@},{]})",
        "[",
        "\n",
        Outcome::Closed,
    ),
    marks(
        "changecom({@})changequote({[},{]})",
        "[[",
        "\n",
        Outcome::Closed,
    ),
    marks(
        "changecom({@})changequote({[[},{]})",
        "[",
        "\n",
        Outcome::Closed,
    ),
    marks("changequote({@},{;})", "#", "\n", Outcome::Closed),
    marks(
        "changecom({@},{E})changequote({@},{\n})",
        "[",
        ";",
        Outcome::Refused,
    ),
    // no comments, and quotes that a newline ends
    marks("changecom{}", "#", "\n", Outcome::Off),
    marks("changecom{}changequote({@},{E})", "#", "\n", Outcome::Quote),
    marks("changequote({@},{E})", "%", "\n", Outcome::Quote),
    marks("changequote({@})", "%%", "\n", Outcome::Quote),
];

/// A content that shows most.
pub const PLAIN: &[u8] = b"a),";
const LONG: [u8; 700] = [b'a'; 700];
/// What a comment holds; signs as in [`filled`].
pub const CONTENTS: [&[u8]; 15] = [
    b"",
    b"a",
    b" \t",
    b"`",
    b"a'",
    b"`a'",
    b"(",
    PLAIN,
    b"len(a)",
    b"dnl",
    b"@",
    b";",
    b"-x%",
    b"\xff\x00\r",
    &LONG,
];
/// What stands behind it; signs as in [`filled`].
pub const ENDINGS: [&str; 8] = ["", "E", "Eb)z", "Eb@", "\n", "\nb)z", ";", ";b)z@"];

/// Two bytes that no other mark has, to quote anything at all.
const OPEN: u8 = 1;
const CLOSE: u8 = 2;

/// Whether the place quotes what may hold any mark.
fn needs_own_quotes(place: &str) -> bool {
    before_marks(place).contains('{')
}

fn before_marks(place: &str) -> &str {
    place.split_once('M').expect("marks are set").0
}

/// Whether such marks can be set in a place. Where it quotes something behind that, the quote marks
/// must be as they were.
pub fn fits(place: &str, marks: &Marks) -> bool {
    let behind = &place[before_marks(place).len()..];
    !(behind.contains('{') && marks.calls.contains("changequote"))
}

/// The text of a place. There `M` stands for calls that set marks, `@` for the begin-comment mark
/// then, `<` and `>` for its first byte and the others, `E` for the end-comment mark, `{` and `}` for
/// quote marks, and `~` for what the comment holds and what stands behind it.
pub fn filled(place: &str, marks: &Marks, content: &[u8], ending: &str) -> Vec<u8> {
    let own = needs_own_quotes(place);
    let quotes = if own { [OPEN, CLOSE] } else { *b"`'" };
    let filling = Filling { marks, quotes };
    let mut text = Vec::new();
    if own {
        text.extend([&b"changequote("[..], &[OPEN, b',', CLOSE], b")"].concat());
    }
    for &sign in place.as_bytes() {
        match sign {
            b'M' => filling.fill(marks.calls.as_bytes(), &mut text),
            b'~' => filling.fill(&[content, ending.as_bytes()].concat(), &mut text),
            other => filling.fill(&[other], &mut text),
        }
    }
    text
}

/// What the signs for marks stand for.
struct Filling<'m> {
    marks: &'m Marks,
    quotes: [u8; 2],
}

impl Filling<'_> {
    fn fill(&self, signs: &[u8], text: &mut Vec<u8>) {
        let begin = self.marks.begin.as_bytes();
        for &sign in signs {
            match sign {
                b'@' => text.extend(begin),
                b'<' => text.push(begin[0]),
                b'>' => text.extend(&begin[1..]),
                b'E' => text.extend(self.marks.end.bytes()),
                b'{' => text.push(self.quotes[0]),
                b'}' => text.push(self.quotes[1]),
                byte => text.push(byte),
            }
        }
    }
}
