//! Marks for quotes and comments.

use crate::random::Random;

/// Bytes that a mark may have.
pub const MARK_BYTES: [u8; 22] = [
    b'[', b']', b'<', b'>', b'{', b'}', b'|', b'%', b'$', b'+', b'-', b'#', b'`', b'\'', b';',
    b'.', b'~', 0x00, 0x0d, 0x80, 0xe9, 0xff,
];
/// Texts that are no mark.
pub const BAD_MARKS: [&[u8]; 18] = [
    b"", b"a", b"Z", b"_", b"0", b"[9", b"(", b"))", b",", b" ", b"\t[", b"[\t", b"\n", b"\n\n",
    b"[\n", b"[[[[[[", b"<a>", b"[)",
];

const SANE: [(&[u8], &[u8]); 9] = [
    (b"[", b"]"),
    (b"<<", b">>"),
    (b"{", b"}"),
    (b"<!--", b"-->"),
    (b"<!-->", b"-+"),
    (b"`", b"'"),
    (b"``", b"''"),
    (b"\x80\x00", b"\xff"),
    (b"[[[[[", b"]]]]]"),
];
/// Marks that are equal, overlap, are each other's front, or have bytes of the usual ones.
const KIN: [(&[u8], &[u8]); 18] = [
    (b"|", b"|"),
    (b"[[", b"["),
    (b"[", b"[["),
    (b"[", b"[]"),
    (b"+-", b"-+"),
    (b"%%", b"%"),
    (b"<", b">>"),
    (b"<<", b">"),
    (b"%%", b"%%"),
    (b"%-%", b"%"),
    (b"[", b"\n"),
    (b"#", b"\n"),
    (b"#", b";"),
    (b"##", b";"),
    (b"`", b"''"),
    (b"``", b"'"),
    (b"$", b"$"),
    (b"\x01", b"#"),
];

pub type Pair = (Vec<u8>, Vec<u8>);

/// A begin and an end mark of 1 to 5 bytes. Half of them are sane; the others are kin, or made of very
/// few different bytes, so that they mostly are.
pub fn marks(random: &mut Random) -> Pair {
    match random.below(20) {
        0..=9 => owned(random.pick(&SANE)),
        10..=13 => owned(random.pick(&KIN)),
        _ => of_few_bytes(random),
    }
}

fn owned((begin, end): (&[u8], &[u8])) -> Pair {
    (begin.to_vec(), end.to_vec())
}

fn of_few_bytes(random: &mut Random) -> Pair {
    let bytes = [random.pick(&MARK_BYTES), random.pick(&MARK_BYTES)];
    let bytes = if random.chance(40) {
        &bytes[..1]
    } else {
        &bytes[..]
    };
    let lengths = [(); 2].map(|()| random.pick(&[1, 1, 2, 2, 3, 4, 5]));
    let begin = random.bytes(bytes, lengths[0]);
    let end = match random.below(8) {
        0 => b"\n".to_vec(),
        1 => begin.clone(),
        2 => begin[..random.between(1, begin.len())].to_vec(),
        3 => [&begin[..], bytes].concat()[..5.min(begin.len() + 1)].to_vec(),
        _ => random.bytes(bytes, lengths[1]),
    };
    (begin, end)
}
