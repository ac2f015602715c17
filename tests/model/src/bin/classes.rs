//! `classes` prints a line for each byte from 0 to 255: its number in decimal, a space and its class.
//! `tests/model/run` compares these lines with those that the proved program prints.

use model::bytes::class;

fn main() {
    for byte in 0..=u8::MAX {
        println!("{byte} {}", class(byte).name());
    }
}
