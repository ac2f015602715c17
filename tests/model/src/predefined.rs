//! Which macros are predefined, and which of them are called bare.

/// The 24 predefined macros in the order of 01, and then "by arrival", as 02 says in request 10:
/// `include` and `sinclude` came with request 1, `copydef` with request 7.
#[derive(Clone, Copy, Debug, PartialEq, Eq)]
pub enum Predefined {
    Changecom,
    Changequote,
    Decr,
    Define,
    Defn,
    Divert,
    Divnum,
    Dnl,
    Errprint,
    Eval,
    Ifdef,
    Ifelse,
    Incr,
    Index,
    Len,
    M4exit,
    M4wrap,
    Popdef,
    Pushdef,
    Shift,
    Substr,
    Translit,
    Undefine,
    Undivert,
    Include,
    Sinclude,
    Copydef,
}

use Predefined::*;

/// How many there are.
const COUNT: usize = 27;

/// A count for each of them.
pub type Calls = [u64; COUNT];

impl Predefined {
    pub const ALL: [Predefined; COUNT] = [
        Changecom,
        Changequote,
        Decr,
        Define,
        Defn,
        Divert,
        Divnum,
        Dnl,
        Errprint,
        Eval,
        Ifdef,
        Ifelse,
        Incr,
        Index,
        Len,
        M4exit,
        M4wrap,
        Popdef,
        Pushdef,
        Shift,
        Substr,
        Translit,
        Undefine,
        Undivert,
        Include,
        Sinclude,
        Copydef,
    ];

    /// The name that has this meaning at the start.
    pub fn name(self) -> &'static str {
        const NAMES: [&str; COUNT] = [
            "changecom",
            "changequote",
            "decr",
            "define",
            "defn",
            "divert",
            "divnum",
            "dnl",
            "errprint",
            "eval",
            "ifdef",
            "ifelse",
            "incr",
            "index",
            "len",
            "m4exit",
            "m4wrap",
            "popdef",
            "pushdef",
            "shift",
            "substr",
            "translit",
            "undefine",
            "undivert",
            "include",
            "sinclude",
            "copydef",
        ];
        NAMES[self as usize]
    }

    /// Whether a name of this meaning is called only with `(` directly behind it. 02, request 2:
    /// these "shall stand as plain text unless `(` directly follows. The other seven keep their
    /// bare call." Request 7: the "rule follows the meaning, not the name, and copydef joins its
    /// list".
    pub fn needs_parenthesis(self) -> bool {
        match self {
            Decr | Define | Defn | Errprint | Eval | Ifdef | Ifelse | Incr | Index | Len
            | M4wrap | Popdef | Pushdef | Shift | Substr | Translit | Undefine | Include
            | Sinclude | Copydef => true,
            Changecom | Changequote | Divert | Divnum | Dnl | M4exit | Undivert => false,
        }
    }
}

#[cfg(test)]
mod tests {
    use super::*;

    #[test]
    fn names_stand_in_the_order_of_the_page_and_then_by_arrival() {
        let names = Predefined::ALL.map(Predefined::name);
        let (of_the_page, arrived) = names.split_at(24);
        assert!(of_the_page.windows(2).all(|pair| pair[0] < pair[1]));
        assert_eq!(arrived, ["include", "sinclude", "copydef"]);
        let places = Predefined::ALL.map(|which| which as usize);
        assert_eq!(places, std::array::from_fn(|place| place));
    }

    #[test]
    fn seven_keep_their_bare_call() {
        let bare: Vec<&str> = Predefined::ALL
            .iter()
            .filter(|which| !which.needs_parenthesis())
            .map(|which| which.name())
            .collect();
        let seven = [
            "changecom",
            "changequote",
            "divert",
            "divnum",
            "dnl",
            "m4exit",
            "undivert",
        ];
        assert_eq!(bare, seven);
        // the others as bits of a word, the first name the lowest
        let others = Predefined::ALL
            .iter()
            .filter(|which| which.needs_parenthesis());
        let bits: u32 = others.map(|&which| 1 << which as u32).sum();
        assert_eq!(bits, 0x77f_7f1c);
    }
}
