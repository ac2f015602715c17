//! The names and characters that the scan for likely mistakes knows. tests/interfaces/command/hints.py holds the names to the book of rules.

/// Predefined names that are plain text unless `(` directly follows.
const NEED_CALL: [&str; 20] = [
    "copydef", "decr", "define", "defn", "errprint", "eval", "ifdef", "ifelse", "include", "incr",
    "index", "len", "m4wrap", "popdef", "pushdef", "shift", "sinclude", "substr", "translit",
    "undefine",
];
/// Predefined names that may have arguments or none.
const TAKE_CALL: [&str; 5] = ["changecom", "changequote", "divert", "m4exit", "undivert"];
/// Predefined names that have no arguments.
const BARE: [&str; 2] = ["divnum", "dnl"];
/// Those that are plain text without `(` and words of everyday writing, too, where a parenthesis may follow.
const EVERYDAY: [&str; 5] = ["define", "include", "index", "len", "shift"];
/// Macros of GNU m4 that are not predefined here.
const FOREIGN: [&str; 19] = [
    "__file__",
    "__line__",
    "__program__",
    "builtin",
    "changeword",
    "debugfile",
    "debugmode",
    "dumpdef",
    "esyscmd",
    "format",
    "indir",
    "maketemp",
    "mkstemp",
    "patsubst",
    "regexp",
    "syscmd",
    "sysval",
    "traceoff",
    "traceon",
];

pub fn needs_call(name: &str) -> bool {
    NEED_CALL.contains(&name)
}

pub fn takes_call(name: &str) -> bool {
    TAKE_CALL.contains(&name)
}

pub fn is_predefined(name: &str) -> bool {
    needs_call(name) || takes_call(name) || BARE.contains(&name)
}

/// All of them.
pub fn predefined() -> impl Iterator<Item = &'static str> {
    NEED_CALL.into_iter().chain(TAKE_CALL).chain(BARE)
}

pub fn is_everyday(name: &str) -> bool {
    EVERYDAY.contains(&name)
}

pub fn changes_marks(name: &str) -> bool {
    ["changecom", "changequote"].contains(&name)
}

pub fn includes(name: &str) -> bool {
    ["include", "sinclude"].contains(&name)
}

/// Whether it gives a name a meaning.
pub fn defines(name: &str) -> bool {
    ["copydef", "define", "pushdef"].contains(&name)
}

pub fn is_foreign(name: &str) -> bool {
    FOREIGN.contains(&name)
}

/// Whether a character may be meant for a quote mark: in a quote, for its end mark.
pub fn looks_alike(mark: char, quoted: bool) -> bool {
    match mark {
        '\u{2018}'..='\u{201b}' | '\u{b4}' | '\u{2032}' | '\u{2035}' => true,
        '\u{2bc}' | '\u{ff07}' | '\u{ff40}' => true,
        '\u{201c}'..='\u{201f}' => !quoted,
        _ => false,
    }
}
