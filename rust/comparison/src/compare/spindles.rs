//! Cases of spindles: calls on any list of states, and lists of calls on four fresh ones, which their walks judge.

use super::ticks::Ground;
use super::{Case, Compared, Difference};
use crate::generate::spindles::{self, Drawn, Lent};
use crate::generate::{letters, runs, states, tables};
use crate::show;
use interface::{SPINDLES, STORE};
use reference::answer::Refusal;
use reference::chart::Chart;
use reference::check::chart_of;
use reference::frames::{text_of, CHARACTERS};
use reference::library::{Library, Reference, Tick};
use reference::prepare::table_of;
use reference::spindle_walks::{self, expected, Turn};
use reference::state::State;
use reference::Told;

/// The tick of a spindle, by an image's text or by a table.
type SpinCall<'a> =
    fn(&(dyn Library + 'a), &mut [State], &mut usize, usize, &[u8], u16) -> Result<Tick, Refusal>;

/// A spindle's chart, and what the library made of it.
struct Made {
    chart: Chart,
    image: Vec<u8>,
    table: Vec<u8>,
}

impl<'a> Case<'a> {
    /// Compares the tick of a spindle, and hands back its answer and the list and the record after it.
    fn spun(
        &mut self,
        name: &'static str,
        call: SpinCall<'a>,
        ground: Ground,
        start: &Lent,
        word: u16,
    ) -> Result<(Result<Tick, Refusal>, Lent), Box<Difference>> {
        let made = |library: &(dyn Library + 'a)| {
            let mut after = start.clone();
            let Lent { states, taken, spindle } = &mut after;
            (call(library, states, taken, *spindle, ground.bytes, word), after)
        };
        let (wanted, got) = (made(&Reference), made(self.library));
        if let (Some(own), Ok(tick)) = (start.states.get(start.spindle), wanted.0) {
            self.note_spin(name, own, start.taken, tick.code);
        }
        self.hold(name, wanted.0, &wanted, &got, || {
            let on = (ground.shown)(ground.bytes);
            format!("{on}{}\nword {word:04X}", show::spindles(&start.states, start.taken, start.spindle))
        })?;
        Ok(wanted)
    }

    fn note_spin(&mut self, name: &'static str, own: &State, taken: usize, code: u8) {
        self.summary.note_codes(name, own.depth.into(), &own.serving, &[code]);
        self.summary.note_store(name, taken, code);
    }

    /// Some ticks of one spindle, and some of another one on the same image; the state stands in another list after a refusal that would
    /// come again.
    fn some_spins(
        &mut self,
        name: &'static str,
        call: SpinCall<'a>,
        ground: Ground,
        own: &State,
    ) -> Compared {
        let mut lent = spindles::lent(&mut self.random, own);
        for word in runs::words(&mut self.random, 8) {
            let (answer, after) = self.spun(name, call, ground, &lent, word)?;
            lent = match answer.number() {
                15 | 25 => spindles::lent(&mut self.random, own),
                1..=14 => break,
                _ => after,
            };
            if self.random.once_in(8) {
                lent.spindle = self.random.below(SPINDLES);
            }
        }
        Ok(())
    }

    /// An image of any sort or of a chart that calls deep, and a state for it.
    pub(super) fn spin(&mut self) -> Compared {
        let (image, state) = if self.random.once_in(2) {
            self.image_and_state()
        } else {
            let (_, image) = spindles::deep(&mut self.random);
            let state = states::state(&mut self.random, image.shape());
            (letters::sizes(&mut self.random, text_of(&image.frames())), state)
        };
        self.summary.note_letters("spin", &image);
        let ground = Ground { bytes: &image, shown: show::text };
        self.some_spins("spin", <dyn Library>::spin, ground, &state)
    }

    /// The same by a table, which may be damaged.
    pub(super) fn live_spin(&mut self) -> Compared {
        let (table, state) = if self.random.once_in(2) {
            tables::table_and_state(&mut self.random)
        } else {
            let (_, image) = spindles::deep(&mut self.random);
            (table_of(&image).concat(), states::state(&mut self.random, image.shape()))
        };
        let ground = Ground { bytes: &table, shown: show::bytes };
        self.some_spins("live_spin", <dyn Library>::live_spin, ground, &state)
    }

    /// A spindle's image and table, as the library makes them.
    fn made_of(&mut self, drawn: &Drawn) -> Result<Made, Box<Difference>> {
        let frames = drawn.image.frames().len();
        let text = letters::sizes(&mut self.random, text_of(&drawn.records));
        let image = self.made("translate", <dyn Library>::translate, &text, frames * CHARACTERS)?;
        let table = self.made("prepare", <dyn Library>::prepare, &image, frames * 10)?;
        Ok(Made { chart: chart_of(&drawn.records).expect("generated charts are valid"), image, table })
    }

    /// A list of calls on four spindles from fresh states: each call's answer, mask, code and depths are those of the walks, the record
    /// is the sum of the depths, and nothing but the spindle's own state changes, nor that where the call is refused.
    pub(super) fn spins(&mut self) -> Compared {
        let drawn = spindles::four(&mut self.random);
        let turns = spindles::turns(&mut self.random, &drawn);
        let made: Vec<Made> = drawn.iter().map(|one| self.made_of(one)).collect::<Result<_, _>>()?;
        let told = expected(std::array::from_fn(|k| (&made[k].chart, drawn[k].size)), &turns);
        let mut states = drawn.each_ref().map(|one| self.library.fresh(one.size).unwrap_or(State::NONE));
        let mut taken = SPINDLES;
        for (k, (turn, told)) in turns.iter().zip(&told).enumerate() {
            let (before, taken_before) = (states, taken);
            let (spindle, answer) = self.made_turn(&made, turn, &mut states, &mut taken);
            let mut left = before;
            if let Ok(made) = told.answer {
                left[spindle] = states[spindle];
                if let spindle_walks::Made::Tick(tick) = made {
                    self.note_spin("spins", &before[spindle], taken_before, tick.code);
                }
            }
            let depths = states.each_ref().map(|state| usize::from(state.depth));
            let wanted = (told.answer, told.depths, told.depths.iter().sum(), left);
            self.hold("spins", told.answer, &wanted, &(answer, depths, taken, states), || {
                let charts: Vec<String> = drawn.iter().map(show_drawn).collect();
                format!("{}call {k} of {turns:?}", charts.concat())
            })?;
        }
        Ok(())
    }

    /// Makes one call of a list by the image or by the table, and hands back which spindle it was about.
    fn made_turn(
        &mut self,
        made: &[Made],
        turn: &Turn,
        states: &mut [State; SPINDLES],
        taken: &mut usize,
    ) -> (usize, Result<spindle_walks::Made, Refusal>) {
        let live = self.random.once_in(2);
        match *turn {
            Turn::Spin { spindle, word } => {
                let Made { image, table, .. } = &made[spindle % SPINDLES];
                let ticked = match live {
                    true => self.library.live_spin(states, taken, spindle, table, word),
                    false => self.library.spin(states, taken, spindle, image, word),
                };
                (spindle % SPINDLES, ticked.map(spindle_walks::Made::Tick))
            }
            Turn::Rebind { spindle, number, scheme } => {
                let (Made { image, table, .. }, state) = (&made[spindle], &mut states[spindle]);
                let answer = match live {
                    true => self.library.live_rebind(table, state, number, scheme),
                    false => self.library.rebind(image, state, number, scheme),
                };
                (spindle, answer.map(spindle_walks::Made::Rebinding))
            }
        }
    }
}

fn show_drawn(drawn: &Drawn) -> String {
    format!("chart of {}size {}\n", show::text(&text_of(&drawn.records)), drawn.size)
}

impl super::Summary {
    /// Notes a drop that is made while all places are taken.
    fn note_store(&mut self, call: &'static str, taken: usize, code: u8) {
        *self.full_drops.entry(call).or_default() += usize::from(taken == STORE && code == 0x60);
    }
}
