//! How an entry point refuses.

pub use interface::{Answer, Refusal};

/// Refuses where the test holds.
pub fn refuse_if(refusal: Refusal, test: bool) -> Result<(), Refusal> {
    if test {
        Err(refusal)
    } else {
        Ok(())
    }
}

/// Refuses at the lowest index that offends, if there is one.
pub fn refuse_lowest(
    refusal: fn(usize) -> Refusal,
    count: usize,
    offends: impl Fn(usize) -> bool,
) -> Result<(), Refusal> {
    (0..count).find(|&index| offends(index)).map_or(Ok(()), |index| Err(refusal(index)))
}
