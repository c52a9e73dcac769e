//! What the tests of faulty libraries share.

use std::fmt::Display;

use comparison::compare::compare;
use reference::Library;

/// An enum of the faults, and the list of them all.
#[allow(unused_macros)] // some tests have a list of another form
macro_rules! faults {
    ($($fault:ident),* $(,)?) => {
        #[derive(Clone, Copy, Debug, PartialEq)]
        enum Fault {
            $($fault),*
        }

        use Fault::*;

        const FAULTS: &[Fault] = &[$($fault),*];
    };
}

/// The comparison finds the fault of a library within so many cases.
pub fn is_found(fault: impl Display, library: &dyn Library, cases: u64) {
    const SEED: u64 = 5;
    let Err(difference) = compare(library, SEED, cases) else {
        panic!("{fault} was not found");
    };
    println!("{fault}: case {} in {}", difference.seed - SEED, difference.call);
}
