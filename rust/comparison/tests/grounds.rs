//! The generator reaches each ground of 15 and of 22 by itself, and each ground for which a spindle's list gets 15.

use std::collections::BTreeMap;

use comparison::generate::spindles::{lent, Lent};
use comparison::generate::{images, runs, states, Random};
use reference::entry;
use reference::frames::text_of;
use reference::image::{image_of, Image};
use reference::machine::{self, handles};
use reference::{Refusal, State};

/// What keeps a state of a good size and depth from fitting, each ground by itself.
fn grounds(image: &Image, state: &State) -> Vec<&'static str> {
    let (depth, schemes, handler) = (usize::from(state.depth), image.entries.len(), image.handler);
    let label = |at: usize| image.labels.get(usize::from(state.places[at]));
    let owned = |at: usize, scheme: u8| label(at).is_none_or(|label| label.owner == scheme);
    let callable = |scheme: u8| (2..=schemes).contains(&usize::from(scheme));
    let own = |number: usize| number > schemes || number == usize::from(handler);
    let bottom = if handles_safely(image, state.places[0]) { handler } else { 1 };
    let above = |test: &dyn Fn(usize) -> bool| (1..depth).any(test);
    let called = |at: usize| label(at - 1).map_or(0, |label| label.called);
    let served = |test: &dyn Fn(usize, u8) -> bool| (2..=16).any(|h| test(h, state.serving[h - 1]));
    let found = [
        ("a label that there is not", (0..depth).any(|at| label(at).is_none())),
        ("a label above the depth", state.places[depth..].iter().any(|label| *label != 0)),
        ("a number above the depth", state.numbers[depth..].iter().any(|number| *number != 0)),
        ("a server above the depth", state.servers[depth..].iter().any(|server| *server != 0)),
        ("a bottom of another scheme", bottom == 1 && !owned(0, 1)),
        ("the number of the bottom", state.numbers[0] != bottom),
        ("the server of the bottom", state.servers[0] != bottom),
        ("no call beneath", above(&|at| label(at - 1).is_some_and(|label| !label.calls()))),
        ("another number than that called", above(&|at| state.numbers[at] != called(at))),
        ("a server that cannot be called", above(&|at| !callable(state.servers[at]))),
        ("an owner that did not serve", above(&|at| state.places[at] != 1 && !owned(at, state.servers[at]))),
        ("a number of 2 to H served from outside", served(&|h, server| !own(h) && !callable(server))),
        ("a number above H served by another", served(&|h, server| h > schemes && usize::from(server) != h)),
        (
            "the handler's number served by another",
            served(&|h, server| h == usize::from(handler) && server != handler),
        ),
    ];
    found.iter().filter(|(_, met)| *met).map(|(ground, _)| *ground).collect()
}

fn handles_safely(image: &Image, bottom: u8) -> bool {
    usize::from(bottom) < image.labels.len() && handles(image, bottom)
}

/// Each ground of 15 is met alone, and where there is one the state does not fit.
#[test]
fn states_fail_by_every_ground_alone() {
    let mut found = BTreeMap::new();
    for seed in 0..20_000 {
        let random = &mut Random::new(seed);
        let image = images::accepted(random);
        let state = states::state(random, image.shape());
        let sized = (1..=32).contains(&state.size) && (1..=state.size).contains(&state.depth);
        if image_of(&image.frames()).is_err() || !sized {
            continue;
        }
        let grounds = grounds(&image, &state);
        assert_eq!(machine::fits(&image, &state), grounds.is_empty(), "seed {seed}: {grounds:?}");
        if let [ground] = grounds[..] {
            *found.entry(ground).or_insert(0) += 1;
        }
    }
    println!("{found:?}");
    assert_eq!(found.len(), 14, "{found:?}");
    assert!(found.values().all(|count| *count >= 10), "{found:?}");
}

/// What a rebinding is refused for, each ground by itself: whether it is the number's or the scheme's, and what it is.
fn rebinding_grounds(
    schemes: usize,
    handler: u8,
    number: usize,
    scheme: usize,
) -> Vec<(&'static str, &'static str)> {
    let mut found = Vec::new();
    for (whose, value) in [("number", number), ("scheme", scheme)] {
        let cut = value > 255 && (2..=schemes).contains(&(value % 256));
        match value {
            0 => found.push((whose, "0")),
            1 => found.push((whose, "1")),
            _ if value <= schemes => {}
            2..=16 => found.push((whose, "above H, up to 16")),
            17..=20 => found.push((whose, "17 to 20")),
            _ if cut => found.push((whose, "one of 2 to H in its lowest byte")),
            _ => found.push((whose, "large otherwise")),
        }
    }
    if handler != 0 && number == usize::from(handler) {
        let to = if scheme == number { "the handler's, to itself" } else { "the handler's, to another" };
        found.push(("number", to));
    }
    found
}

/// Each ground of 22 is met alone, and so are rebindings that succeed: to another scheme, to the same again, and to the handler's.
#[test]
fn rebindings_fail_by_every_ground_alone() {
    let mut found = BTreeMap::new();
    for seed in 0..40_000 {
        let random = &mut Random::new(seed);
        let image = images::accepted(random);
        let mut state = states::fitting(random, image.shape());
        if image_of(&image.frames()).is_err() {
            continue;
        }
        let (number, scheme) = runs::rebinding(random, image.entries.len());
        let (before, text) = (state, text_of(&image.frames()));
        let answer = entry::rebind(&text, &mut state, number, scheme);
        let grounds = rebinding_grounds(image.entries.len(), image.handler, number, scheme);
        assert_eq!(answer == Err(Refusal::BadRebinding), !grounds.is_empty(), "seed {seed}: {grounds:?}");
        if let [ground] = grounds[..] {
            *found.entry(ground).or_insert(0) += 1;
        } else if grounds.is_empty() {
            let serves_already = usize::from(before.serving[number - 1]) == scheme;
            let what = match scheme == usize::from(image.handler) {
                true => "to the handler's scheme",
                false if serves_already => "to what serves already",
                false => "to another scheme",
            };
            *found.entry(("rebound", what)).or_insert(0) += 1;
        }
    }
    println!("{found:?}");
    assert_eq!(found.len(), 17, "{found:?}");
    assert!(found.values().all(|count| *count >= 10), "{found:?}");
}

/// What a list of states is refused for, each ground by itself.
fn list_grounds(image: &Image, lent: &Lent) -> Vec<&'static str> {
    let Lent { states, taken, spindle } = lent;
    let sum: usize = states.iter().map(|state| usize::from(state.depth)).sum();
    let fits = states.get(*spindle).is_some_and(|state| machine::fits(image, state));
    let found = [
        (
            "fewer than four states, that of the spindle among them",
            states.len() < 4 && *spindle < states.len(),
        ),
        ("fewer than four states, without that of the spindle", states.len() < 4 && *spindle >= states.len()),
        ("more than four states", states.len() > 4),
        ("more places recorded than taken", sum < *taken && *taken <= 64),
        ("fewer places recorded than taken, no more than there are", sum > *taken && sum <= 64),
        (
            "fewer places recorded than taken, which a byte holds",
            sum > 255 && sum % 256 == *taken && *taken <= 64,
        ),
        ("fewer places recorded than taken, otherwise", sum > 64 && sum % 256 != *taken && *taken <= 64),
        ("more places recorded than there are, and not taken", *taken > 64 && sum <= 64),
        ("more places taken than there are", *taken > 64 && sum > 64),
        ("a state that does not fit", *spindle < states.len() && !fits),
    ];
    found.iter().filter(|(_, met)| *met).map(|(ground, _)| *ground).collect()
}

/// Each ground is met alone, and where there is one the answer is 15; so are lists in order whose other states do not fit.
#[test]
fn lists_fail_by_every_ground_alone() {
    let mut found = BTreeMap::new();
    for seed in 0..40_000 {
        let random = &mut Random::new(seed);
        let image = images::accepted(random);
        let own = states::state(random, image.shape());
        let mut lent = lent(random, &own);
        if image_of(&image.frames()).is_err() || lent.spindle > 3 {
            continue;
        }
        let grounds = list_grounds(&image, &lent);
        let misfits = lent.states.iter().filter(|state| !machine::fits(&image, state)).count();
        let text = text_of(&image.frames());
        let ticked =
            entry::spin(&mut lent.states, &mut lent.taken, lent.spindle, &text, random.number() as u16);
        assert_eq!(ticked == Err(Refusal::Unfit), !grounds.is_empty(), "seed {seed}: {grounds:?}");
        match grounds[..] {
            [ground] => *found.entry(ground).or_insert(0) += 1,
            [] if misfits == 3 => *found.entry("in order, no other state fits").or_insert(0) += 1,
            _ => {}
        }
    }
    println!("{found:?}");
    assert_eq!(found.len(), 11, "{found:?}");
    assert!(found.values().all(|count| *count >= 10), "{found:?}");
}
