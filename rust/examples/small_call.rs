//! What a small call takes: the least of many, in microseconds. `cargo run --release --offline --example small_call`

use quenhovach::{expand, expand_to_vec, Buffers, Expander, BUDGET, EMPTY_SET, LONGEST};
use std::hint::black_box;
use std::time::{Duration, Instant};

const TEXT: &[u8] = b"define(`guys',`3')dnl\nguy_count=guys\n";
const CALLS: usize = 20_000;

fn main() {
    let mut room = vec![[0; LONGEST]; 7];
    report("expand, slices lent", || lent(&mut room));
    let mut expander = Expander::new();
    report("Expander::expand", || {
        let written = expander.expand(black_box(TEXT)).expect("it is done");
        written.output.len()
    });
    report("expand_to_vec", || {
        let expansion = expand_to_vec(black_box(TEXT)).expect("it is done");
        expansion.output.len()
    });
}

/// The call in slices.
fn lent(room: &mut [[u8; LONGEST]]) -> usize {
    let [pending, calls, definitions, streams, wrap, errors, output] = room else {
        panic!("seven buffers");
    };
    let buffers = Buffers {
        pending,
        calls,
        definitions,
        streams,
        wrap,
        errors,
        output,
    };
    expand(black_box(TEXT), EMPTY_SET, buffers, BUDGET).output
}

/// Times the call many times, and writes the least.
fn report(name: &str, mut call: impl FnMut() -> usize) {
    let timed = |_| {
        let began = Instant::now();
        assert_eq!(black_box(call()), b"guy_count=3\n".len());
        began.elapsed()
    };
    let least = (0..CALLS).map(timed).min().unwrap_or(Duration::MAX);
    println!("{name:20} {:6.1}", least.as_secs_f64() * 1e6);
}
