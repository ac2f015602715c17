//! Where a comment may begin that no end mark closes.

/// A text with signs (see [`super::filled`]), and what it is there for: the ways, by the names that
/// the model gives them, where a newline ends comments and where another mark does.
#[derive(Clone, Copy, Debug)]
pub struct Place {
    pub text: &'static str,
    pub closed: &'static [&'static str],
    pub refused: &'static [&'static str],
}

const fn place(
    text: &'static str,
    closed: &'static [&'static str],
    refused: &'static [&'static str],
) -> Place {
    Place {
        text,
        closed,
        refused,
    }
}

const OUTPUT: &[&str] = &[
    "remark to output",
    "remark in the input",
    "remark, then done",
];
const OTHER: &[&str] = &["other end mark"];
const CALL: &[&str] = &["remark in a call", "remark, open call", "in a call, with )"];
const OTHER_CALL: &[&str] = &["other, in a call"];
const ACROSS: &[&str] = &["remark to output", "across the border", "remark, then done"];
const PENDING: &[&str] = &["remark to output", "remark in pending", "remark, then done"];
const OTHER_PENDING: &[&str] = &["other, pending"];
const PENDING_CALL: &[&str] = &["in a call, pending", "remark, open call"];
const WAITING: &[&str] = &["remark to output", "before waiting wrap"];
const LAST: &[&str] = &["remark to output", "in the last wrap", "remark, then done"];
const WRAP_CALL: &[&str] = &["in a call of wrap", "remark, open call"];
const OTHER_WRAP: &[&str] = &["other, in wrap"];

pub const PLACES: [Place; 36] = [
    // outside of calls
    place("M@~", OUTPUT, OTHER),
    place("Ma 1@~", OUTPUT, OTHER),
    place("M\n@~", OUTPUT, OTHER),
    place("Mboom(@~", OUTPUT, OTHER),
    place(
        "divert(3)M@~",
        &["remark to a stream"],
        &["other, to a stream"],
    ),
    place(
        "divert(-1)M@~",
        &["remark discarded"],
        &["other, discarding"],
    ),
    // where there is none: in a quote, and in a line that is dropped
    place("M{@~", &["in an open quote"], &["in an open quote"]),
    place("M{@}~", &[], &[]),
    place("Mdnl @~", &[], &[]),
    place("Mdnl\n@~", OUTPUT, OTHER),
    // in an argument: its first token, behind dropped blanks, behind others, in parentheses, in a call in it
    place("Mshift(@~", CALL, OTHER_CALL),
    place("Mshift(a, \n\t@~", CALL, OTHER_CALL),
    place("Mshift(a @~", CALL, OTHER_CALL),
    place("Mshift({}@~", CALL, OTHER_CALL),
    place("Merrprint((@~", CALL, OTHER_CALL),
    place("Merrprint(a,shift((b),@~", CALL, OTHER_CALL),
    // begun in pending text, which ends behind the mark, in it, or behind all the rest
    place("define({p},{@})Mp()~", ACROSS, OTHER_PENDING),
    place(
        "define({p},{<})Mp()>~",
        &["remark to output"],
        OTHER_PENDING,
    ),
    place("define({p},{<})Mshift(p()>~", PENDING_CALL, OTHER_PENDING),
    place("define({p},{a @~})Mp()", PENDING, OTHER_PENDING),
    place("define({p},{@~})Mp()z", ACROSS, OTHER_PENDING),
    place("Mifelse(a,a,{@})~", ACROSS, OTHER_PENDING),
    place("define({p},{@})Mshift(p()~", PENDING_CALL, OTHER_PENDING),
    place("define({p},{a, @~})Mshift(p()", PENDING_CALL, OTHER_PENDING),
    // before wrap text that waits, and in wrap text
    place("m4wrap({z})M@~", WAITING, OTHER),
    place("m4wrap({\nz})M@~", WAITING, OTHER),
    place("m4wrap({@~})M", LAST, OTHER_WRAP),
    place("m4wrap({@~})m4wrap({z})M", LAST, OTHER_WRAP),
    place("m4wrap({@})m4wrap({~})M", LAST, OTHER_WRAP),
    place(
        "m4wrap({m4wrap(z)@~})M",
        &["in wrap, more waits"],
        OTHER_WRAP,
    ),
    place("m4wrap({shift(@~})M", WRAP_CALL, OTHER_WRAP),
    place("m4wrap({m4wrap(z)shift(@~})M", WRAP_CALL, OTHER_WRAP),
    place(
        "define({p},{(@})m4wrap({shift(p()~})M",
        WRAP_CALL,
        OTHER_WRAP,
    ),
    place(
        "m4wrap({divert(2)@~})M",
        &["remark to a stream"],
        OTHER_WRAP,
    ),
    place("define({p},{@})m4wrap({p()~})M", LAST, OTHER_WRAP),
    place("m4wrap({@})M~", LAST, OTHER_WRAP),
];
