//! Runs of eight words of a text, each as a number.

const WORDS: usize = 8;

/// Of a run so many words must be words: rows of bytes and lists of numbers say nothing that could be said otherwise.
const SPOKEN: usize = 5;

/// A hexadecimal byte or field, or a line of a chart or an image.
fn is_number(word: &str) -> bool {
    word.chars().all(|c| c.is_ascii_hexdigit()) && (word.len() <= 4 || word.len() == 22)
}

/// FNV-1a of the words in small letters, of which 40 bits are kept.
fn digest(words: &[(usize, &str)]) -> u64 {
    let bytes = words.iter().flat_map(|(_, word)| word.bytes().chain([b' ']));
    let sum = bytes.fold(0xCBF2_9CE4_8422_2325_u64, |sum, byte| {
        (sum ^ u64::from(byte.to_ascii_lowercase())).wrapping_mul(0x100_0000_01B3)
    });
    sum >> 24
}

/// Each run, with the line where it begins and its words; what stands between words, line ends and marks of comments too, is passed over.
pub fn runs(text: &str) -> Vec<(u64, usize, String)> {
    let words: Vec<(usize, &str)> = text
        .lines()
        .zip(1..)
        .flat_map(|(line, number)| {
            line.split(|c: char| !c.is_ascii_alphanumeric()).map(move |word| (number, word))
        })
        .filter(|(_, word)| !word.is_empty())
        .collect();
    words
        .windows(WORDS)
        .filter(|run| run.iter().filter(|(_, word)| !is_number(word)).count() >= SPOKEN)
        .map(|run| (digest(run), run[0].0, run.iter().map(|(_, word)| *word).collect::<Vec<_>>().join(" ")))
        .collect()
}
