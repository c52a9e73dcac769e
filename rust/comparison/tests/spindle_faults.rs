//! Libraries with one fault each in what they make of four spindles: the comparison must find every one, live or not.

#[macro_use]
mod common;

use common::is_found;
use comparison::compare::compare_spins;
use reference::entry::image_from_text;
use reference::live::Held;
use reference::machine::{self, Advanced};
use reference::{as_the_reference, Library, Reference, Refusal, State, Tick};

faults! {
    // 25
    TriesTheSpindleAfterTheImage,
    TriesTheSpindleAfterTheList,
    CutsTheSpindle,
    CountsSpindlesRound,
    // which lists are in order
    TriesTheListBeforeTheImage,
    AllowsMoreStates,
    AllowsFewerStates,
    LooksAtNoRecord,
    SumsInAByte,
    CutsTheRecord,
    SumsTheOthersAlone,
    AllowsARecordAbove64,
    TriesTheOthersForFitness,
    // whose state
    TriesTheFirstState,
    TicksTheFirstState,
    // 26
    SixtyFivePlaces,
    SixtyThreePlaces,
    NeverLacksAPlace,
    TriesPlacesBeforeTheStack,
    DropNeedsAPlace,
    ReturnNeedsAPlace,
    EveryTickNeedsAPlace,
    Refuses26As17,
    // what a refusal changes
    RecordChangedBy26,
    RecordChangedBy17,
    StateChangedBy26,
    // what a tick that is made changes
    AdvancesTheNeighbour,
    AdvancesTheNeighbourToo,
    KeepsTheState,
    TidiesTheOthers,
    CallTakesNoPlace,
    ReturnGivesNoPlaceBack,
    DropGivesNoPlaceBack,
    DropGivesOnePlaceBack,
    DropGivesAllPlacesBack,
    DropTakesAPlace,
    ReturnAtTheBottomGivesAPlaceBack,
    RecordsTheDepth,
}

/// The reference with one fault, in its live calls or in the others.
struct Faulty {
    fault: Fault,
    live: bool,
}

/// What a tick is made on.
struct Ground<'a> {
    fits: &'a dyn Fn(&State) -> bool,
    tick: &'a dyn Fn(&State) -> Result<Advanced, Refusal>,
}

/// Whether a tick is a finished call, a return above depth 1, a drop, or a return at depth 1.
#[derive(Clone, Copy, PartialEq)]
enum Kind {
    Call,
    Return,
    Drop,
    BottomReturn,
    Other,
}

fn kind(before: &State, advanced: &Advanced) -> Kind {
    match advanced.code {
        _ if advanced.state.depth > before.depth => Kind::Call,
        0x60 => Kind::Drop,
        0x03 if before.depth > 1 => Kind::Return,
        0x03 => Kind::BottomReturn,
        _ => Kind::Other,
    }
}

impl Faulty {
    fn store(&self) -> usize {
        match self.fault {
            SixtyFivePlaces => 65,
            SixtyThreePlaces => 63,
            _ => 64,
        }
    }

    /// Whether the list and the record are taken to be in order.
    fn in_order(&self, states: &[State], taken: usize, spindle: usize, ground: &Ground) -> bool {
        let length = match self.fault {
            AllowsMoreStates => states.len() >= 4,
            AllowsFewerStates => states.len() <= 4 && spindle < states.len(),
            _ => states.len() == 4,
        };
        let sum: usize = states.iter().map(|state| usize::from(state.depth)).sum();
        let taken = if self.fault == CutsTheRecord { taken % 256 } else { taken };
        let sums = match self.fault {
            LooksAtNoRecord => true,
            SumsInAByte => sum % 256 == taken,
            SumsTheOthersAlone => {
                sum == taken + usize::from(states.get(spindle).map_or(0, |state| state.depth))
            }
            _ => sum == taken,
        };
        let above = self.fault != AllowsARecordAbove64 && taken > self.store();
        let others = self.fault != TriesTheOthersForFitness || states.iter().all(ground.fits);
        length && sums && !above && others
    }

    /// Whether a tick of this kind is refused where no place is left.
    fn needs_a_place(&self, kind: Kind) -> bool {
        match self.fault {
            NeverLacksAPlace => false,
            DropNeedsAPlace => matches!(kind, Kind::Call | Kind::Drop),
            ReturnNeedsAPlace => matches!(kind, Kind::Call | Kind::Return),
            EveryTickNeedsAPlace => true,
            _ => kind == Kind::Call,
        }
    }

    /// The record after a tick that is made.
    fn recorded(&self, taken: usize, before: usize, after: usize, kind: Kind) -> usize {
        match (self.fault, kind) {
            (CallTakesNoPlace, Kind::Call)
            | (ReturnGivesNoPlaceBack, Kind::Return)
            | (DropGivesNoPlaceBack, Kind::Drop) => taken,
            (DropGivesOnePlaceBack, Kind::Drop) => taken.wrapping_sub(1),
            (DropGivesAllPlacesBack, Kind::Drop) => taken.wrapping_sub(before),
            (DropTakesAPlace, Kind::Drop) => (taken + after - before) + 1,
            (ReturnAtTheBottomGivesAPlaceBack, Kind::BottomReturn) => taken.wrapping_sub(1),
            (RecordsTheDepth, _) => after,
            _ => (taken + after).wrapping_sub(before),
        }
    }

    /// The tick of a spindle in a list that is taken to be in order.
    fn turned(
        &self,
        states: &mut [State],
        taken: &mut usize,
        spindle: usize,
        ground: &Ground,
    ) -> Result<Tick, Refusal> {
        let own = if self.fault == TicksTheFirstState { 0 } else { spindle };
        let before = states[own];
        let full = *taken >= self.store();
        let advanced = match (ground.tick)(&before) {
            Err(Refusal::Full { .. }) if self.fault == TriesPlacesBeforeTheStack && full => {
                return Err(Refusal::NoPlace)
            }
            Err(refusal) => {
                *taken += usize::from(self.fault == RecordChangedBy17 && refusal.number() == 17);
                return Err(refusal);
            }
            Ok(advanced) => advanced,
        };
        let kind = kind(&before, &advanced);
        if full && self.needs_a_place(kind) {
            if self.fault == StateChangedBy26 {
                states[own] = advanced.state;
            }
            *taken += usize::from(self.fault == RecordChangedBy26);
            let as_17 = self.fault == Refuses26As17;
            return Err(if as_17 { Refusal::Full { ticks: 0 } } else { Refusal::NoPlace });
        }
        *taken = self.recorded(*taken, before.depth.into(), advanced.state.depth.into(), kind);
        let neighbour = (own + 1) % states.len();
        match self.fault {
            AdvancesTheNeighbour => states[neighbour] = advanced.state,
            AdvancesTheNeighbourToo => (states[own], states[neighbour]) = (advanced.state, advanced.state),
            KeepsTheState => {}
            TidiesTheOthers => {
                states[own] = advanced.state;
                states[neighbour].places[31] = 0;
            }
            _ => states[own] = advanced.state,
        }
        Ok(Tick { mask: advanced.mask, code: advanced.code })
    }

    fn spun(
        &self,
        states: &mut [State],
        taken: &mut usize,
        spindle: usize,
        ground: Result<Ground, Refusal>,
    ) -> Result<Tick, Refusal> {
        let late = matches!(self.fault, TriesTheSpindleAfterTheImage | TriesTheSpindleAfterTheList);
        let number = match self.fault {
            CutsTheSpindle => spindle & 0xFF,
            CountsSpindlesRound => spindle % 4,
            _ => spindle,
        };
        if number > 3 && !late {
            return Err(Refusal::NoSpindle);
        }
        if self.fault == TriesTheListBeforeTheImage && states.len() != 4 {
            return Err(Refusal::Unfit);
        }
        let ground = ground?;
        if number > 3 && self.fault == TriesTheSpindleAfterTheImage {
            return Err(Refusal::NoSpindle);
        }
        let tried = if self.fault == TriesTheFirstState { 0 } else { number % 4 };
        let ordered = self.in_order(states, *taken, number % 4, &ground);
        if !ordered || !states.get(tried).is_some_and(ground.fits) {
            return Err(Refusal::Unfit);
        }
        if number > 3 {
            return Err(Refusal::NoSpindle);
        }
        if !(ground.fits)(&states[number]) || !(ground.fits)(&states[0]) && self.fault == TicksTheFirstState {
            return Ok(Tick { mask: 0, code: 0 });
        }
        self.turned(states, taken, number, &ground)
    }
}

impl Library for Faulty {
    as_the_reference!(chart_calls, image_calls, run_calls, rebindings, value_calls);

    fn spin(
        &self,
        states: &mut [State],
        taken: &mut usize,
        spindle: usize,
        image: &[u8],
        word: u16,
    ) -> Result<Tick, Refusal> {
        if self.live {
            return Reference.spin(states, taken, spindle, image, word);
        }
        match image_from_text(image) {
            Ok(image) => {
                let fits = |state: &State| machine::fits(&image, state);
                let tick = |state: &State| machine::tick(&image, state, word);
                self.spun(states, taken, spindle, Ok(Ground { fits: &fits, tick: &tick }))
            }
            Err(refusal) => self.spun(states, taken, spindle, Err(refusal)),
        }
    }

    fn live_spin(
        &self,
        states: &mut [State],
        taken: &mut usize,
        spindle: usize,
        table: &[u8],
        word: u16,
    ) -> Result<Tick, Refusal> {
        if !self.live {
            return Reference.live_spin(states, taken, spindle, table, word);
        }
        match Held::of(table) {
            Ok(held) => {
                let (fits, tick) = (|state: &State| held.fits(state), |state: &State| held.tick(state, word));
                self.spun(states, taken, spindle, Ok(Ground { fits: &fits, tick: &tick }))
            }
            Err(refusal) => self.spun(states, taken, spindle, Err(refusal)),
        }
    }
}

#[test]
fn every_fault_is_found() {
    for live in [false, true] {
        for &fault in FAULTS {
            is_found(format_args!("{fault:?}, live: {live}"), &Faulty { fault, live }, 20_000);
        }
    }
}

/// Lists of calls from fresh states find these by themselves, with the walks alone for a judge.
#[test]
fn lists_alone_find_faults() {
    let faults = [
        CountsSpindlesRound,
        TriesTheOthersForFitness,
        TicksTheFirstState,
        SixtyFivePlaces,
        SixtyThreePlaces,
        NeverLacksAPlace,
        TriesPlacesBeforeTheStack,
        DropNeedsAPlace,
        ReturnNeedsAPlace,
        RecordChangedBy26,
        RecordChangedBy17,
        StateChangedBy26,
        AdvancesTheNeighbour,
        AdvancesTheNeighbourToo,
        DropGivesNoPlaceBack,
        DropTakesAPlace,
        ReturnAtTheBottomGivesAPlaceBack,
    ];
    for live in [false, true] {
        for fault in faults {
            assert!(compare_spins(&Faulty { fault, live }, 5, 2_000).is_err(), "{fault:?}, live: {live}");
        }
    }
}
