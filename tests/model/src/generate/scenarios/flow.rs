//! Where text goes to and comes back from: streams, wrap text, loops, text that doubles, dropped lines
//! and early ends.

use super::join;
use crate::generate::words::{self, number};
use crate::random::Random;

/// Text in several streams, moved about.
pub fn streams(random: &mut Random) -> Vec<u8> {
    let mut text = Vec::new();
    for _ in 0..random.between(2, 16) {
        let stream = random.pick(&[
            "0",
            "1",
            "1",
            "2",
            "3",
            "4",
            "5",
            "6",
            "7",
            "8",
            "9",
            "9",
            "-1",
            "10",
            "01",
            "-0",
            "-2147483648",
            "2147483647",
        ]);
        let (one, two, three) = (
            random.between(1, 9),
            random.between(1, 3),
            random.between(1, 9),
        );
        let word = words::plain(random);
        text.extend(match random.below(12) {
            0 => b"undivert`'".to_vec(),
            1 => format!("undivert({one},{two},{three})").into_bytes(),
            2 => format!("undivert({two})").into_bytes(),
            3 => b"divert`'".to_vec(),
            4 => b"divnum ".to_vec(),
            5 => b"errprint(divnum,x)".to_vec(),
            _ => join(&[format!("divert({stream})").as_bytes(), &word, b"`'"]),
        });
    }
    text.extend(
        random
            .pick(&[
                "",
                "",
                "",
                "m4exit(7)",
                "m4exit",
                "undivert",
                "divert(2)",
                "m4wrap(`undivert')",
            ])
            .as_bytes(),
    );
    text
}

/// Wrap text in wrap text, across its seams, and left open.
pub fn wrapped(random: &mut Random) -> Vec<u8> {
    let mut text = Vec::new();
    for _ in 0..random.between(1, 6) {
        let word = words::any(random);
        let word: Vec<u8> = word
            .into_iter()
            .filter(|byte| !b"`'#()".contains(byte))
            .collect();
        text.extend(match random.below(9) {
            0 => join(&[b"m4wrap(`m4wrap(`", &word, b"')", &word, b"')"]),
            1 => join(&[b"m4wrap(`errprint(`", &word, b"',", &word, b")')"]),
            2 => b"m4wrap(`le')m4wrap(`n(ab')m4wrap(`)')".to_vec(),
            3 => join(&[b"m4wrap(", &word, b",x)"]),
            4 => b"m4wrap(`m4wrap(`m4wrap(`a')b')c')".to_vec(),
            5 => join(&[
                b"define(`w',`ifelse($1,0,,`$1m4wrap(`w(decr($1))')')')w(",
                &number(random, 0, 5),
                b")",
            ]),
            6 => b"m4wrap(`divert(1)b`'')divert(2)a`'".to_vec(),
            7 => join(&[b"errprint(", &word, b",`b", &word, b"')"]),
            _ => join(&[b"m4wrap(`", &word, b"')", &word]),
        });
    }
    let end = random.pick(&[
        "",
        "",
        "",
        "dnl a",
        "m4exit(255)",
        "m4wrap(`m4exit(3)')",
        "m4wrap(`len(')",
        "m4wrap(`#')",
        "m4wrap",
        "m4wrap()",
    ]);
    text.extend(end.as_bytes());
    text
}

/// Loops, some of them without end. N is a small number.
pub fn loops(random: &mut Random) -> Vec<u8> {
    let text = random.pick(&[
        "define(`x',`x')x",
        "define(`x',`xx ')x",
        "define(`x',`a`'x`'x')x",
        "define(`x',`a x`'x')x",
        "define(`x',`define(`y$#')errprint(b)x')x",
        "define(`w',`m4wrap(`w')a')w",
        "define(`l',`ifelse(`$1',`0',`',`$1 l(decr($1))')')l(N)",
        "define(`l',`ifelse(`$1',`0',`',`$1 l(decr($1))')')l(N)",
        "define(`r',`ifelse(`$#',`1',`$1',`r(shift($@)),$1')')r(`a',b,c,`d',N)",
        "define(`n',0)define(`l',`ifelse(n,N,,`n define(`n',incr(n))l')')l",
        "define(`f',`ifelse(eval(`$1<2'),1,`$1',`eval(f(decr($1))+f(eval($1-2)))')')f(eval(N%7))",
        "define(`l',`pushdef(`s',`$1')ifelse($1,0,,`l(decr($1))')')l(N)s popdef(`s')s popdef(`s')s",
        "define(`l',`divert($1)$1;`'ifelse($1,0,,`l(decr($1))')')l(eval(N%10))undivert",
        "define(`l',`ifelse($1,0,`len(',`l(decr($1))(,')')l(N)a",
        "define(`n',`N')define(`l',`ifelse(n,`0',`',`n define(`n',decr(n))l')')l",
        "define(`l',`ifelse(`$#',`1',`$1',`$1;l(shift($@))')')l(a,a,a,a,z)",
        "define(`r',`len(r')r",
        "define(`r',`,r')len(r)",
        "define(`r',`ifelse(r')r",
    ]);
    let count = random.below(13);
    text.replace('N', &count.to_string()).into_bytes()
}

/// Text that doubles until it is short or as long as may be, for each of the buffers.
pub fn doubled(random: &mut Random) -> Vec<u8> {
    let times = if random.chance(12) {
        random.between(13, 16)
    } else {
        random.between(1, 8)
    };
    let end = random.pick(&[
        "len(defn(`x'))",
        "x",
        "errprint(defn(`x'))errprint(defn(`x'))",
        "m4wrap(defn(`x'))m4wrap(defn(`x'))",
        "divert(3)x`'divert(4)x`'undivert(3)",
        "index(defn(`x'),`bb')",
        "translit(defn(`x'),`a')",
        "substr(defn(`x'),5,7)",
        "pushdef(`x',defn(`x'))pushdef(`x',defn(`x'))undefine(`x')x",
        "define(`y',`$1$1$1')y(defn(`x'))",
        "define(`y',`$1$1$1$1$1$1$1$1')len(y(y(y(defn(`x')))))",
        "ifelse(defn(`x'),defn(`x'),`same',`other')",
    ]);
    let digits = random.pick(&["1000", "65535", "65536", "65537", "2147483647"]);
    match random.below(8) {
        0 => format!("eval(1,{},{digits})", random.between(2, 36)),
        1 => format!("eval(-1/{},2,{digits})", random.below(3)),
        _ => format!(
            "define(`d',`define(`x',defn(`x')defn(`x'))')define(`x',`ab'){}{end}",
            "d ".repeat(times)
        ),
    }
    .into_bytes()
}

/// dnl before, in and behind anything.
pub fn lines(random: &mut Random) -> Vec<u8> {
    let text = random.pick(&[
        "dnl `\na'",
        "len(dnl)\na)",
        "define(`d',`dnl b')d c\nd",
        "define(`d',`dnl b\nc')d()e",
        "m4wrap(`z')dnl a",
        "dnl",
        "dnl(",
        "dnl(a\nb)c\nd",
        "a dnl#\n b\n",
        "define(`d',`dnl')d()\n\nd()x\ny",
        "define(`d',`a\n')dnl d\nd()dnl\nb",
    ]);
    [words::plain(random), text.into(), words::any(random)].concat()
}

/// m4exit somewhere on the way.
pub fn exits(random: &mut Random) -> Vec<u8> {
    let code = random.pick(&[
        "", "(0)", "(1)", "(255)", "(7,x)", "(007)", "(-0)", "(256)", "(-1)", "()",
    ]);
    let text = random.pick(&[
        "a`'errprint(b)m4exitC`c",
        "len(m4exitC`",
        "divert(1)a`'m4wrap(b)m4exitC",
        "a divert(2)b`'undivert(2)divert`'c`'m4exitC d",
        "define(`f',`m4exitC')f(a)f",
        "m4wrap(`x`'m4exitC y')z",
        "ifelse(a,b,c,`m4exitC')d",
    ]);
    text.replace('C', code).into_bytes()
}
