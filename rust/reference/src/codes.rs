//! What a tick's code stands for: every tick that there can be is tried.

use interface::Meaning;

/// Each kind of tick with its code; only schemes 2 to 16 are called.
fn ticks() -> impl Iterator<Item = (u8, Meaning)> {
    let alone =
        [(0x00, Meaning::Plain), (0x03, Meaning::Return), (0x04, Meaning::Home), (0x60, Meaning::Drop)];
    let calls = |h| [(0x10 + h, Meaning::OperationCall(h)), (0x40 + h, Meaning::FunctionCall(h))];
    alone.into_iter().chain((2..=16).flat_map(calls))
}

pub fn meaning(code: u8) -> Meaning {
    ticks().find(|tick| tick.0 == code).map_or(Meaning::Unknown, |tick| tick.1)
}
