//! Libraries that make a dry run in one wrong way each: the comparison must find every one.

#[macro_use]
mod common;

use common::is_found;
use reference::{as_the_reference, entry, Answer, Library, Refusal, State};

faults! {
    // the state
    RunsOn32Places,
    CutsTheSize,
    TakesALargeSizeAs32,
    TriesTheSizeBeforeTheText,
    TriesTheSizeBeforeTheImagesRoom,
    TriesNoSize,
    RunsWithSwappedSchemes,
    // the image
    KeepsTheImageBack,
    WritesTheImageOnceItRan,
    WritesPastTheImage,
    CountsCharacters,
    // the run
    RunsTheWholeBuffer,
    RunsNoWords,
    RunsTheFirstWordTwice,
    TriesTheRoomForMasksFirst,
    RunsAsFarAsThereIsRoom,
    TellsRefusedRunsAsDone,
    CountsNoTicksWith17,
    SwallowsTheTickBefore17,
    ClearsMasksWithARefusal,
}

struct Faulty(Fault);

impl Faulty {
    /// A state of this size.
    fn fresh(&self, size: usize) -> Result<State, Refusal> {
        let mut state = entry::fresh(match self.0 {
            RunsOn32Places if (1..=32).contains(&size) => 32,
            CutsTheSize => size & 0xFF,
            TakesALargeSizeAs32 => size.min(32),
            TriesNoSize => size.clamp(1, 32),
            _ => size,
        })?;
        if self.0 == RunsWithSwappedSchemes {
            state.serving[1..4].rotate_left(1);
        }
        Ok(state)
    }
}

/// Whether the text translates, and the buffer is too short for its image.
fn has_no_room(text: &[u8], image: &[u8]) -> bool {
    entry::translated(text).is_ok_and(|made| made.len() > image.len())
}

impl Library for Faulty {
    as_the_reference!(read_chart, write_chart, translate, places, image_calls, run_calls);
    as_the_reference!(rebindings, spins, value_calls);

    fn dry_run(
        &self,
        text: &[u8],
        size: usize,
        image: &mut [u8],
        words: &[u16],
        masks: &mut [u32],
        codes: &mut [u8],
    ) -> Answer {
        let Faulty(fault) = *self;
        let before = image.to_vec();
        let room = masks.len().min(codes.len());
        let fresh = self.fresh(size);
        match fault {
            TriesTheSizeBeforeTheText => drop(fresh?),
            TriesTheSizeBeforeTheImagesRoom if has_no_room(text, image) => drop(fresh?),
            TriesTheRoomForMasksFirst if masks.len() < words.len() => return Err(Refusal::NoRoom),
            _ => {}
        }
        let translated = entry::translate(text, image);
        if translated.is_err() && fault == ClearsMasksWithARefusal {
            masks.fill(0);
        }
        let length = translated?;
        let made = image.to_vec();
        match fault {
            KeepsTheImageBack | WritesTheImageOnceItRan => image.copy_from_slice(&before),
            WritesPastTheImage => image[length..].iter_mut().take(1).for_each(|byte| *byte = !*byte),
            _ => {}
        }
        let mut state = fresh?;
        let twice = [&words[..words.len().min(1)], words].concat();
        let words = match fault {
            RunsNoWords => &[],
            RunsTheFirstWordTwice => &twice[..words.len()],
            RunsAsFarAsThereIsRoom => &words[..words.len().min(room)],
            _ => words,
        };
        let ground = if fault == RunsTheWholeBuffer { &made[..] } else { &made[..length] };
        let answer = entry::run(ground, &mut state, words, masks, codes);
        if answer.is_ok() && fault == WritesTheImageOnceItRan {
            image.copy_from_slice(&made);
        }
        match (fault, answer) {
            (CountsCharacters, Ok(_)) => Ok(length),
            (TellsRefusedRunsAsDone, Err(refusal)) => Ok(refusal.ticks()),
            (CountsNoTicksWith17, Err(Refusal::Full { .. })) => Err(Refusal::Full { ticks: 0 }),
            (SwallowsTheTickBefore17, Err(Refusal::Full { ticks })) if ticks > 0 => {
                codes[ticks - 1] = 0;
                answer
            }
            _ => answer,
        }
    }
}

#[test]
fn every_fault_is_found() {
    for &fault in FAULTS {
        is_found(format_args!("{fault:?}"), &Faulty(fault), 20_000);
    }
}
