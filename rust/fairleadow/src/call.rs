//! How calls reach the archive. It takes lengths and numbers as 64 bits on every processor, and of what it returns only the low eight
//! bits have a meaning.

use crate::tick::Tick;
use crate::{c, Refusal};

/// Makes a call, with room for its index and its count, and puts its answer together.
pub(crate) fn answered(call: impl FnOnce(*mut u64, *mut u64) -> u32) -> Result<usize, Refusal> {
    let (mut index, mut count) = (0, 0);
    let number = call(&mut index, &mut count) as u8;
    // both fit: they are no larger than the lengths that were given
    let (index, count) = (index as usize, count as usize);
    match number {
        0 => Ok(count),
        number => Err(Refusal::told(number, index, count).unwrap_or(Refusal::Other(number))),
    }
}

/// How many elements there are.
pub(crate) fn length<T>(of: &[T]) -> u64 {
    of.len() as u64
}

/// A call that only reads.
pub(crate) fn read(call: c::Read, bytes: &[u8]) -> Result<usize, Refusal> {
    // SAFETY: the slice is borrowed for the call, which reads it; index and count are places of its own.
    answered(|index, count| unsafe { call(bytes.as_ptr(), length(bytes), index, count) })
}

/// A call that writes into one lent buffer.
pub(crate) fn written(call: c::Write, bytes: &[u8], out: &mut [u8]) -> Result<usize, Refusal> {
    // SAFETY: both slices are borrowed for the call, the one that it writes to alone, so that nothing overlaps it.
    answered(|index, count| unsafe {
        call(bytes.as_ptr(), length(bytes), out.as_mut_ptr(), length(out), index, count)
    })
}

/// A tick on an image or on a table.
pub(crate) fn ticked(call: c::Tick, ground: &[u8], state: &mut c::State, word: u16) -> Result<Tick, Refusal> {
    let mut tick = Tick::default();
    // SAFETY: the ground is borrowed for the call, which reads it; the state and the tick's mask and code are borrowed for it alone.
    answered(|index, count| unsafe {
        call(ground.as_ptr(), length(ground), state, word, &mut tick.mask, &mut tick.code, index, count)
    })?;
    Ok(tick)
}

/// A run on an image or on a table.
pub(crate) fn ran(
    call: c::Run,
    ground: &[u8],
    state: &mut c::State,
    words: &[u16],
    masks: &mut [u32],
    codes: &mut [u8],
) -> Result<usize, Refusal> {
    // SAFETY: ground and words are borrowed for the call, which reads them; state, masks and codes are borrowed for it alone.
    answered(|index, count| unsafe {
        call(
            ground.as_ptr(),
            length(ground),
            state,
            words.as_ptr(),
            length(words),
            masks.as_mut_ptr(),
            length(masks),
            codes.as_mut_ptr(),
            length(codes),
            index,
            count,
        )
    })
}

/// The ticks of a run that lends room for all of them.
pub(crate) fn ticks<const N: usize>(
    run: impl FnOnce(&mut [u32], &mut [u8]) -> Result<usize, Refusal>,
) -> Result<[Tick; N], Refusal> {
    let (mut masks, mut codes) = ([0; N], [0; N]);
    run(&mut masks, &mut codes)?;
    Ok(core::array::from_fn(|at| Tick { mask: masks[at], code: codes[at] }))
}

/// A rebinding by an image or by a table.
pub(crate) fn rebound(
    call: c::Rebind,
    ground: &[u8],
    state: &mut c::State,
    number: usize,
    scheme: usize,
) -> Result<(), Refusal> {
    // SAFETY: the ground is borrowed for the call, which reads it; the state is borrowed for it alone.
    answered(|index, count| unsafe {
        call(ground.as_ptr(), length(ground), state, number as u64, scheme as u64, index, count)
    })?;
    Ok(())
}
