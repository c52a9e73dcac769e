//! Letters of either size.

use super::Random;

/// The text as it is, with small letters alone, or with each letter of either size.
pub fn sizes(random: &mut Random, mut text: Vec<u8>) -> Vec<u8> {
    let small = random.pick(&[0, 0, 1, 2]);
    for character in &mut text {
        if small == 1 || small == 2 && random.once_in(2) {
            character.make_ascii_lowercase();
        }
    }
    text
}
