//! The letter's third demand, "Room never shapes text", tried on two runs of the model; 02, request
//! 1: "for two runs with one set".

use crate::answer::Setting;
use crate::generate::Pair;
use crate::random::Random;
use crate::run::expand_buffers;

/// One run in lent buffers.
#[derive(Clone, Debug, PartialEq, Eq)]
pub struct Ran {
    /// Number, detail, completed steps, place and both counts.
    pub numbers: [u32; 6],
    pub output: Vec<u8>,
    pub errors: Vec<u8>,
}

/// Tries a pair. Gives the number of the first answer, or what is violated.
pub fn try_pair(random: &mut Random, pair: &Pair) -> Result<u32, String> {
    let [smaller, larger] = &pair.settings;
    let first = run(random, pair, smaller)?;
    let second = run(random, pair, larger)?;
    let [number, detail, steps, ..] = first.numbers;
    if number != 3 && number != 4 {
        return if first == second {
            Ok(number)
        } else {
            Err(violated("not the same answer", pair, &first, &second))
        };
    }
    if second.numbers[2] < steps {
        return Err(violated("fewer steps completed", pair, &first, &second));
    }
    let stopped_alike = match number {
        3 => smaller.budget == larger.budget,
        _ => smaller.lengths[detail as usize - 1] == larger.lengths[detail as usize - 1],
    };
    if stopped_alike && first != second {
        return Err(violated("not the same refusal", pair, &first, &second));
    }
    Ok(number)
}

fn violated(what: &str, pair: &Pair, first: &Ran, second: &Ran) -> String {
    format!("{what}: {pair:?} gives {first:?} and {second:?}")
}

/// Runs a text with its set in buffers that hold random bytes before, and looks at every byte
/// afterwards.
fn run(random: &mut Random, pair: &Pair, setting: &Setting) -> Result<Ran, String> {
    let salt = random.bits();
    let before = setting
        .lengths
        .map(|length| (0..length).map(|i| noise(salt, i)).collect::<Vec<u8>>());
    let mut buffers = before.clone();
    let numbers = expand_buffers(&pair.text, &pair.set, &mut buffers, setting.budget);
    let [number, .., outputs, errors] = numbers;
    let (outputs, errors) = (outputs as usize, errors as usize);
    let untouched = buffers[5][errors..] == before[5][errors..]
        && buffers[6][outputs..] == before[6][outputs..];
    let zeroed = buffers[..5]
        .iter()
        .all(|buffer| buffer.iter().all(|&byte| byte == 0));
    let as_lent = buffers[..5] == before[..5];
    if !untouched
        || !(if number == 2 { as_lent } else { zeroed })
        || (number > 1 && outputs + errors > 0)
    {
        return Err(format!(
            "buffers are not left as they should be: {pair:?} with {setting:?}"
        ));
    }
    Ok(Ran {
        numbers,
        output: buffers[6][..outputs].to_vec(),
        errors: buffers[5][..errors].to_vec(),
    })
}

fn noise(salt: u64, at: usize) -> u8 {
    (salt.wrapping_mul(at as u64 * 2 + 1) >> 56) as u8
}
