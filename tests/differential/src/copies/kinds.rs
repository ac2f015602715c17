//! Each meaning onto names of each kind, and each use of a copy.

use super::{Group, Text};
use model::predefined::Predefined;

/// What makes the new name what it is before the copy, and that name; `~` stands for the name that is
/// copied.
const KINDS: [(&str, &str); 16] = [
    ("", "n"),
    ("", "~"),
    // a name with a text, before and behind others
    ("define(`n')", "n"),
    ("define(`n',`a longer text')", "n"),
    ("define(`n')define(`q',`[$1]')", "n"),
    ("define(`n',`x')define(`q',`[$1]')", "n"),
    ("define(`p',`<`$0'$1>')define(`n',`x')", "n"),
    (
        "define(`p',`<`$0'$1>')define(`n',`a longer text')define(`q',`[$1]')",
        "n",
    ),
    // one with several
    ("pushdef(`n',`x')pushdef(`n',`yy')", "n"),
    (
        "pushdef(`n',`[$1]')define(`q',`[$1]')pushdef(`n')define(`p',`<`$0'$1>')",
        "n",
    ),
    // a copy, of the same or of another meaning
    ("copydef(`dnl',`n')", "n"),
    ("copydef(`~',`n')define(`p',`<`$0'$1>')", "n"),
    ("define(`n',`x')copydef(`~',`q')copydef(`q',`n')", "n"),
    ("pushdef(`n',`x')pushdef(`n')copydef(`len',`n')", "n"),
    // one that lost what it was
    ("copydef(`len',`n')define(`q',`[$1]')undefine(`n')", "n"),
    ("copydef(`len',`n')define(`n',`[$1]')", "n"),
];

/// How a copy is used: `@` stands for its name, `~` for the one that was copied, and `!` for a call that
/// its meaning makes good.
const USES: [&str; 23] = [
    "!",
    "@",
    "@ (2)",
    "@()",
    "@(2,`n',`p')",
    "defn(`@')",
    "defn(`p',`@')",
    "ifdef(`@',`y',`z')",
    "popdef(`@')!",
    "undefine(`@')!",
    "define(`@',`<$1>')@(2)@",
    "pushdef(`@',`<$1>')@(2)popdef(`@')!",
    "copydef(`@',`m')undefine(`@')m(2)m",
    "copydef(`@',`@')!",
    "copydef(`p',`@')@(2)",
    "shift(2,!)",
    "shift(`an argument that is longer than all of the others',@())",
    "@(copydef(`len',`@')2)",
    "@(define(`@',`<$1>')2)",
    "@(undefine(`@')2)",
    "undefine(`~')!",
    "define(`~',`other')!",
    "m4wrap(`copydef(`@',`m')m(2)')",
];

/// How predefined names are used that get another meaning.
const USES_OF_OTHERS: [&str; 4] = ["!", "@ (2)", "popdef(`@')!", "ifdef(`@',`y')"];

/// How predefined names are used that get a text; `!` stands for a call that their own meaning makes good.
const USES_OF_TEXTS: [&str; 5] = ["!", "@", "defn(`@')", "popdef(`@')!", "undefine(`@')!"];

/// What becomes of a predefined name before something is copied onto it.
const OTHERS: [&str; 3] = ["", "pushdef(`@',`[$1]')", "undefine(`@')"];

/// What the others mean.
const BEHIND: &str = ";p(2)q(2)";

/// A call that the meaning makes good; `@` stands for the name.
fn call(which: Predefined) -> &'static str {
    match which {
        Predefined::Changecom => "@(`<',`>')<`a'>b",
        Predefined::Changequote => "@(`[',`]')[a]b",
        Predefined::Decr | Predefined::Incr => "@(7)",
        Predefined::Define => "@(`t',`<$1>')t(2)",
        Predefined::Defn => "define(`t',`u')@(`t')",
        Predefined::Divert => "@(2)a",
        Predefined::Divnum => "divert(2)@(a)",
        Predefined::Dnl => "@(a)b\nc",
        Predefined::Errprint | Predefined::M4wrap | Predefined::Sinclude => "@(`i',2)",
        Predefined::Eval => "@(2+3)",
        Predefined::Ifdef => "@(`len',`y',`z')",
        Predefined::Ifelse => "@(a,a,y,z)",
        Predefined::Include => "@(i)",
        Predefined::Index => "@(abc,c)",
        Predefined::Len => "@(abc)",
        Predefined::M4exit => "@(3)",
        Predefined::Popdef | Predefined::Undefine => "pushdef(`t',`u')@(`t')t",
        Predefined::Pushdef => "define(`t',`u')@(`t',`v')t",
        Predefined::Shift => "@(a,b,c)",
        Predefined::Substr => "@(abcd,1,2)",
        Predefined::Translit => "@(abc,ab,xy)",
        Predefined::Undivert => "divert(2)a`'divert`'@(2)",
        Predefined::Copydef => "@(`divnum',`t')t",
    }
}

/// How a name is used that gets this meaning.
fn used(how: &str, which: Predefined, name: &str) -> String {
    let how = how.replace('!', call(which)).replace('~', which.name());
    how.replace('@', name) + BEHIND
}

pub(super) fn groups() -> Vec<Group> {
    let mut all = Group::new("each meaning onto each kind of name", onto_each_kind());
    all.tight = 3;
    let mut others = Group::new("each meaning onto each predefined name", onto_predefined());
    others.tight = 5;
    let texts = Group::new("a text onto each predefined name", texts_onto_predefined());
    vec![all, others, texts]
}

fn onto_each_kind() -> Vec<Text> {
    let mut texts = Vec::new();
    for which in Predefined::ALL {
        let source = which.name();
        for (before, name) in KINDS {
            let name = name.replace('~', source);
            let before = before.replace('~', source);
            let done = format!("{before}copydef(`{source}',`{name}')");
            texts.extend(USES.map(|how| Text::new(&done, used(how, which, &name))));
        }
    }
    texts
}

fn onto_predefined() -> Vec<Text> {
    let mut texts = Vec::new();
    for which in Predefined::ALL {
        for onto in Predefined::ALL.map(Predefined::name) {
            for before in OTHERS.map(|before| before.replace('@', onto)) {
                let done = format!("{before}copydef(`{}',`{onto}')", which.name());
                let uses = USES_OF_OTHERS.map(|how| Text::new(&done, used(how, which, onto)));
                texts.extend(uses);
            }
        }
    }
    texts
}

fn texts_onto_predefined() -> Vec<Text> {
    let mut texts = Vec::new();
    for onto in Predefined::ALL {
        for before in OTHERS.map(|before| before.replace('@', onto.name())) {
            let done = format!(
                "define(`q',`[`$0'$1]'){before}copydef(`q',`{}')",
                onto.name()
            );
            let uses = USES_OF_TEXTS.map(|how| Text::new(&done, used(how, onto, onto.name())));
            texts.extend(uses);
        }
    }
    texts
}
