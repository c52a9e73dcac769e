//! Inputs and outputs as text, for the report of a difference.

use reference::state::State;

/// A text as it is, with other characters than digits, letters and line feeds escaped.
pub fn text(bytes: &[u8]) -> String {
    let mut shown = format!("{} characters\n", bytes.len());
    for byte in bytes {
        match byte {
            b'\n' => shown.push('\n'),
            b'\\' => shown.push_str("\\\\"),
            0x20..=0x7E => shown.push(*byte as char),
            _ => shown.push_str(&format!("\\x{byte:02X}")),
        }
    }
    shown
}

/// Bytes in hexadecimal, ten a line.
pub fn bytes(bytes: &[u8]) -> String {
    let mut shown = format!("{} bytes\n", bytes.len());
    for ten in bytes.chunks(10) {
        let hex: Vec<String> = ten.iter().map(|b| format!("{b:02X}")).collect();
        shown.push_str(&hex.join(" "));
        shown.push('\n');
    }
    shown
}

/// Words in hexadecimal.
pub fn words(words: &[u16]) -> String {
    let hex: Vec<String> = words.iter().map(|w| format!("{w:04X}")).collect();
    format!("{} words: {}", words.len(), hex.join(" "))
}

pub fn state(state: &State) -> String {
    let results: String = state.results.iter().map(|b| if *b { '1' } else { '0' }).collect();
    format!(
        "size {}, depth {}, places {:?}, results of numbers 1 to 16 {results}, served by {:?}, called by {:?}, served then by {:?}",
        state.size, state.depth, state.places, state.serving, state.numbers, state.servers
    )
}

/// The states of a list, the places recorded as taken, and the spindle that is asked for.
pub fn spindles(states: &[State], taken: usize, spindle: usize) -> String {
    let mut shown = format!("{} states, {taken} places taken, spindle {spindle}", states.len());
    for each in states {
        shown.push_str(&format!("\n  {}", state(each)));
    }
    shown
}
