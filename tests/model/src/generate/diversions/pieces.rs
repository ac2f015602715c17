//! What texts of diversions are made of.

use crate::random::Random;

/// Bytes that are tokens by themselves and mean nothing, and letters but those that name macros here.
const SIGNS: &[u8] = b"0123456789!\"%&*+-./:;<=>?@[\\]^{|}~ \t\x00\x7f\x80\xff";
const LETTERS: &[u8] = b"abcdeghijklnopqrstuvwxyzABCDEFGHIJKLMNOPQRSTUVWXYZ";

/// Streams that discard.
const DISCARDING: [&str; 6] = ["-1", "-1", "10", "11", "-2147483648", "2147483647"];

/// What becomes of collected text.
const COLLECTED: [&str; 7] = ["$1", "$1", "$1$1", "$1.$1", "", "$*;", "$1`'divert(2)$1"];

/// Texts that divert, and calls of them; 1 and 2 stand for letters there.
const MACROS: [(&str, &str); 5] = [
    ("divert($1)$2`'divert", "f(HERE,1)"),
    ("divert(HERE)$1`'divert(YON)$2`'", "f(1,2)"),
    ("divert(HERE)$1`'divert(YON)undivert(HERE)$2`'", "f(1,2)"),
    ("$1`'undivert($2)", "f(1,HERE)"),
    ("divert(HERE)$1=$2;divert`'undivert(HERE)", "f(1,2)f(2,1)"),
];

/// What may stand at the end of a text.
const LAST: [&str; 10] = [
    "",
    "",
    "",
    "divert",
    "divert(-1)",
    "divert(2)",
    "undivert",
    "undivert(3)",
    "m4exit",
    "m4exit(7)",
];

/// A text, and the bytes that it has not written yet.
pub struct Diverter<'r> {
    random: &'r mut Random,
    text: Vec<u8>,
    signs: Vec<u8>,
    letters: Vec<u8>,
}

impl<'r> Diverter<'r> {
    pub fn new(random: &'r mut Random) -> Diverter<'r> {
        Diverter {
            random,
            text: Vec::new(),
            signs: Vec::new(),
            letters: Vec::new(),
        }
    }

    /// The text, with what may stand at its end.
    pub fn last(mut self) -> Vec<u8> {
        let last = self.random.pick(&LAST);
        self.add(last);
        self.text
    }

    fn add(&mut self, text: &str) {
        self.text.extend(text.as_bytes());
    }

    /// One thing that is done with streams.
    pub fn piece(&mut self) {
        match self.random.below(32) {
            0..=11 => self.diverted(),
            12..=15 => self.undivert(),
            16..=17 => self.words(),
            18..=19 => self.there_and_back(),
            20..=21 => self.one_route(),
            22..=23 => self.lost(),
            24..=26 => self.collected(),
            27..=28 => self.by_macro(),
            29..=30 => self.wrapped(),
            _ => self.add("divert`'"),
        }
    }

    /// The next byte of a list; when all were used, they begin anew, in another order.
    fn fresh(random: &mut Random, left: &mut Vec<u8>, all: &[u8]) -> u8 {
        if left.is_empty() {
            left.extend(all);
        }
        left.swap_remove(random.below(left.len()))
    }

    fn sign(&mut self) -> u8 {
        Self::fresh(self.random, &mut self.signs, SIGNS)
    }

    fn letter(&mut self) -> u8 {
        Self::fresh(self.random, &mut self.letters, LETTERS)
    }

    /// A token or two, with nothing that joins what stands behind.
    fn word(&mut self) -> Vec<u8> {
        let (letter, other, sign) = (self.letter(), self.letter(), self.sign());
        match self.random.below(12) {
            0..=3 => vec![sign],
            4..=6 => vec![letter, b'`', b'\''],
            7 => vec![letter, other, b'`', b'\''],
            8..=9 => vec![b'`', letter, b'\''],
            10 => vec![b'`', letter, sign, other, b'\''],
            _ => vec![b'#', letter, b'\n'],
        }
    }

    fn words(&mut self) {
        for _ in 0..self.random.pick(&[1, 1, 1, 2, 3]) {
            let word = self.word();
            self.text.extend(word);
        }
    }

    /// A stream, mostly one of the first.
    fn stream(&mut self) -> usize {
        match self.random.below(3) {
            0 => self.random.between(1, 9),
            _ => self.random.between(1, 3),
        }
    }

    /// A call of divert.
    fn divert(&mut self) {
        let stream = match self.random.below(9) {
            0..=1 => "0".to_string(),
            2 => self.random.pick(&DISCARDING).to_string(),
            _ => self.stream().to_string(),
        };
        self.add(&format!("divert({stream})"));
    }

    fn diverted(&mut self) {
        self.divert();
        self.words();
    }

    /// All streams, one, several, or one more than once.
    fn undivert(&mut self) {
        let named = match self.random.below(8) {
            0..=1 => return self.add("undivert`'"),
            2..=4 => 1,
            _ => self.random.between(2, 4),
        };
        let mut streams: Vec<usize> = (0..named).map(|_| self.stream()).collect();
        if self.random.chance(30) {
            streams.push(streams[0]);
        }
        let streams: Vec<String> = streams.iter().map(usize::to_string).collect();
        self.add(&format!("undivert({})", streams.join(",")));
    }

    /// Two different streams.
    fn two_streams(&mut self) -> [usize; 2] {
        let first = self.stream();
        [first, first % 9 + 1]
    }

    /// Bytes are moved to another stream and come back.
    fn there_and_back(&mut self) {
        let [here, there] = self.two_streams();
        self.add(&format!("divert({here})"));
        self.words();
        self.add(&format!("divert({there})undivert({here})divert({here})"));
        if self.random.chance(50) {
            self.words();
        }
        self.add(&format!("undivert({there})"));
    }

    /// Bytes of one stream go one way, each in an undivert of its own.
    fn one_route(&mut self) {
        let [from, to] = self.two_streams();
        let to = self.random.pick(&[0, to, to]);
        for _ in 0..self.random.between(2, 3) {
            self.add(&format!("divert({from})"));
            self.words();
            self.add(&format!("divert({to})undivert({from})"));
        }
    }

    /// Bytes are moved where nothing is kept; others may stay.
    fn lost(&mut self) {
        let [gone, kept] = self.two_streams();
        for stream in [kept, gone] {
            if stream == gone || self.random.chance(50) {
                self.add(&format!("divert({stream})"));
                self.words();
            }
        }
        let discarding = self.random.pick(&DISCARDING);
        let undivert = self
            .random
            .pick(&["undivert`'", "undivert(N)", "undivert(N)"]);
        self.add(&format!("divert({discarding})"));
        self.add(&undivert.replace('N', &gone.to_string()));
        if self.random.chance(30) {
            self.words();
        }
    }

    /// Text that is collected in a call, and then written once, more often or never; another stream may
    /// be current by then.
    fn collected(&mut self) {
        let (one, two) = (char::from(self.letter()), char::from(self.letter()));
        let diverts = match self.random.below(3) {
            0 => format!("divert({})", self.stream()),
            _ => String::new(),
        };
        let text = self.random.pick(&COLLECTED);
        let call = match self.random.below(4) {
            0 => format!("ifelse(1,1,`{one}{two}'{diverts})"),
            1 => format!("shift({one},`{two}'{diverts})"),
            _ => format!("define(`m',`{text}')m(`{one}'{diverts},{two})"),
        };
        self.add(&format!("{call}`'"));
    }

    /// A macro whose text diverts and moves.
    fn by_macro(&mut self) {
        let [here, yon] = self.two_streams().map(|stream| stream.to_string());
        let (one, two) = (char::from(self.letter()), char::from(self.letter()));
        let (text, call) = self.random.pick(&MACROS);
        let call = call.replace('1', &one.to_string());
        let call = call.replace('2', &two.to_string());
        let whole = format!("define(`f',`{text}'){call}`'");
        self.add(&whole.replace("HERE", &here).replace("YON", &yon));
    }

    /// Pieces that come last.
    fn wrapped(&mut self) {
        self.add("m4wrap(`");
        for _ in 0..self.random.between(1, 2) {
            self.piece();
        }
        let last = self.random.pick(&["", "", "undivert`'", "m4exit(1)"]);
        self.add(last);
        self.add("')");
    }
}
