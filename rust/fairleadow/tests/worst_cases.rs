//! The inputs that keep each entry point busy for long, those that a search found too: the library answers as the reference
//! does, and leaves the same in buffers and states.

use comparison::entry_point::EntryPoint;
use comparison::samples::worst::candidates;
use proved::Proved;
use reference::Reference;

#[test]
fn worst_cases_are_answered_as_by_the_reference() {
    for entry in EntryPoint::ALL {
        for candidate in candidates(entry) {
            let (given, wanted) =
                (entry.make(&Proved, &candidate.input), entry.make(&Reference, &candidate.input));
            assert!(
                given == wanted,
                "{}, {}: {:?}, not {:?}",
                entry.name(),
                candidate.name,
                given.answer,
                wanted.answer
            );
        }
    }
}
