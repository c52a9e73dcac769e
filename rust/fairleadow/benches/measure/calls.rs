//! The calls of a library, each on an input that stands ready.

use comparison::entry_point::{EntryPoint, Input};
use interface::{IMAGE_TEXT, LABELS, SPINDLES};
use reference::frames::text_of;
use reference::{Library, State};

use super::{keep, Call};

/// One call on an input, with buffers that are never too short; a state is as it was before each call.
pub fn call_of(entry: EntryPoint, library: &'static dyn Library, input: &Input) -> Call {
    let Input { state, words, prices, value, chart, lists, rebinding: (number, scheme), .. } = input.clone();
    let (text, bytes) = (text_of(&input.frames), input.frames.concat());
    let (mut out, mut image) = (vec![0; IMAGE_TEXT], vec![0; IMAGE_TEXT]);
    let (mut firsts, mut counts) = (vec![0; LABELS], vec![0; LABELS]);
    let (mut masks, mut codes) = (vec![0; words.len()], vec![0; words.len()]);
    Box::new(move || {
        let mut after = state;
        match entry {
            EntryPoint::ReadChart => keep(library.read_chart(&text, &mut out)),
            EntryPoint::WriteChart => keep(library.write_chart(&bytes, &mut out)),
            EntryPoint::Translate => keep(library.translate(&text, &mut out)),
            EntryPoint::Places => keep(library.places(&text)),
            EntryPoint::CheckImage => keep(library.check_image(&text)),
            EntryPoint::Prepare => keep(library.prepare(&text, &mut out)),
            EntryPoint::Tick => keep(library.tick(&text, &mut after, words[0])),
            EntryPoint::Run => keep(library.run(&text, &mut after, &words, &mut masks, &mut codes)),
            EntryPoint::DryRun => {
                keep(library.dry_run(&text, value, &mut image, &words, &mut masks, &mut codes))
            }
            EntryPoint::PricedRun => {
                keep(library.priced_run(&text, &mut after, &prices, &words, &mut masks, &mut codes))
            }
            EntryPoint::Cause => keep(library.cause(&text, &state, words[0])),
            EntryPoint::ListRows => keep(library.list_rows(&text, &mut firsts, &mut counts)),
            EntryPoint::Minimise => keep(library.minimise(&text, &mut out)),
            EntryPoint::LittleChart => keep(library.little_chart(value, chart, &mut out)),
            EntryPoint::CountFillings => keep(library.count_fillings(&text, value, lists.0, lists.1)),
            EntryPoint::Rebind => keep(library.rebind(&text, &mut after, number, scheme)),
            EntryPoint::Spin => spin(&state, value, |states, taken| {
                keep(library.spin(states, taken, value, &text, words[0]));
            }),
            EntryPoint::CheckTable => keep(library.check_table(&bytes)),
            EntryPoint::Sum => keep(library.sum(0, &bytes)),
            EntryPoint::LiveTick => keep(library.live_tick(&bytes, &mut after, words[0])),
            EntryPoint::LiveRun => keep(library.live_run(&bytes, &mut after, &words, &mut masks, &mut codes)),
            EntryPoint::LiveRebind => keep(library.live_rebind(&bytes, &mut after, number, scheme)),
            EntryPoint::LiveSpin => spin(&state, value, |states, taken| {
                keep(library.live_spin(states, taken, value, &bytes, words[0]));
            }),
            EntryPoint::Fresh => keep(library.fresh(value)),
            EntryPoint::Meaning => keep(library.meaning(value as u8)),
        }
    })
}

/// On four spindles, of which one has this state and the others take a place each.
fn spin(state: &State, spindle: usize, call: impl FnOnce(&mut [State], &mut usize)) {
    let mut states = [State { depth: 1, ..State::NONE }; SPINDLES];
    states[spindle] = *state;
    let mut taken = SPINDLES - 1 + usize::from(state.depth);
    call(&mut states, &mut taken);
}
