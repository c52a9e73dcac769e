//! Numbers that are given another scheme to serve them before some ticks of a dry run.

use std::fmt;

use fairleadow::{Library, Proved, State};

use crate::command::Failure;
use crate::explain;
use crate::kind::Kind;
use crate::names::Names;
use crate::notation::{nearest, scheme, Word};
use crate::problem::{visible, Problem};

/// Before this tick the number is rebound to the scheme.
#[derive(Clone, Copy, Debug, PartialEq, Eq)]
pub struct Swap {
    pub tick: usize,
    pub number: usize,
    pub scheme: usize,
}

impl fmt::Display for Swap {
    fn fmt(&self, f: &mut fmt::Formatter) -> fmt::Result {
        write!(f, "{}:{}={}", self.tick, self.number, self.scheme)
    }
}

/// Why a piece is no swap.
enum Fault<'a> {
    Form,
    /// A name that no scheme has.
    Unknown(&'a str),
}

impl Swap {
    /// From `TICK:NUMBER=SCHEME`, where number and scheme may be names.
    fn of<'a>(text: &'a str, names: &Names) -> Result<Swap, Fault<'a>> {
        let (tick, rest) = text.split_once(':').ok_or(Fault::Form)?;
        let (number, scheme) = rest.split_once('=').ok_or(Fault::Form)?;
        let tick = tick.trim().parse().map_err(|_| Fault::Form)?;
        Ok(Swap { tick, number: numbered(number.trim(), names)?, scheme: numbered(scheme.trim(), names)? })
    }
}

/// The scheme that a number or a name stands for.
fn numbered<'a>(word: &'a str, names: &Names) -> Result<usize, Fault<'a>> {
    let is_name = || Word { text: word.to_string(), column: 1 }.is_name();
    match word.parse() {
        Ok(number) => Ok(number),
        Err(_) if is_name() => scheme(names, word).map(usize::from).ok_or(Fault::Unknown(word)),
        Err(_) => Err(Fault::Form),
    }
}

/// Swaps with commas between them, none of them past the last tick.
pub fn given(text: &str, ticks: usize, names: &Names) -> Result<Vec<Swap>, Failure> {
    let told = |piece: &str, fault| match fault {
        Fault::Form => format!("'{}' is no swap: write TICK:NUMBER=SCHEME, such as 4:2=3", visible(piece)),
        Fault::Unknown(name) => {
            let near = nearest(name, names.schemes.values().map(String::as_str));
            let near = near.map_or(String::new(), |near| format!("; '{near}' is near to it"));
            format!("no scheme is named '{}'{near}", visible(name))
        }
    };
    let swap = |piece| {
        let swap = Swap::of(piece, names).map_err(|fault| Failure::Usage(told(piece, fault)))?;
        if swap.tick < ticks {
            return Ok(swap);
        }
        Err(Failure::Usage(format!("the swap {swap} comes after the last tick, {}", ticks.saturating_sub(1))))
    };
    text.split(',').map(swap).collect()
}

/// The swaps of one tick, in the order in which they were given.
pub fn of_tick(swaps: &[Swap], tick: usize) -> impl Iterator<Item = &Swap> {
    swaps.iter().filter(move |swap| swap.tick == tick)
}

/// Makes the swaps of one tick on a prepared table.
pub fn make(swaps: &[Swap], tick: usize, table: &[u8], state: &mut State) -> Result<(), Problem> {
    for swap in of_tick(swaps, tick) {
        Proved.live_rebind(table, state, swap.number, swap.scheme).map_err(|refusal| {
            let told = explain::refusal(&[], Kind::Image, refusal);
            Problem { words: format!("the swap {swap}: {}", told.words), ..told }
        })?;
    }
    Ok(())
}

#[cfg(test)]
mod tests {
    use super::*;

    #[test]
    fn swaps_are_tick_number_and_scheme() {
        let swap = |tick, number, scheme| Swap { tick, number, scheme };
        let schemes = [(2, "roughing"), (3, "finer")].map(|(number, name)| (number, name.to_string()));
        let names = Names { schemes: schemes.into(), ..Names::default() };
        let given = |text: &str, ticks| given(text, ticks, &names);
        assert_eq!(given("4:2=3,9:2=2", 10).ok(), Some(vec![swap(4, 2, 3), swap(9, 2, 2)]));
        assert_eq!(given("0: 2 = 3", 1).ok(), Some(vec![swap(0, 2, 3)]));
        assert_eq!(given("4:roughing=finer,5:2=s16", 10).ok(), Some(vec![swap(4, 2, 3), swap(5, 2, 16)]));
        for (text, told) in [
            ("2=3", "'2=3' is no swap: write TICK:NUMBER=SCHEME, such as 4:2=3"),
            ("4:2", "'4:2' is no swap"),
            ("4:2=x", "no scheme is named 'x'"),
            ("4:rouging=3", "no scheme is named 'rouging'; 'roughing' is near to it"),
            ("4:2=-3", "'4:2=-3' is no swap"),
            ("4:2=3,", "'' is no swap"),
            ("-1:2=3", "'-1:2=3' is no swap"),
            ("10:2=3", "the swap 10:2=3 comes after the last tick, 9"),
        ] {
            let Err(Failure::Usage(error)) = given(text, 10) else { panic!("{text} is no wrong call") };
            assert!(error.starts_with(told), "{text}: {error}");
        }
    }
}
