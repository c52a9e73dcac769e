//! Four spindles and one store of places, by hand: places taken and given back, what is refused and in which order, a store without
//! places; and the laws of paper 02 over lists of calls with any images.

use comparison::compare::compare_spins;
use comparison::generate::spindles::{deep, lent, Lent};
use comparison::generate::{images, runs, states, Random};
use comparison::samples::{chart_p, with_handler};
use reference::entry::{image_from_text, live_spin, spin, translated};
use reference::frames::text_of;
use reference::image::Image;
use reference::prepare::table_of;
use reference::{fresh_state, Reference, Refusal, State, Tick, Told};

/// The images of chart P, which calls as long as condition 0 is 1, and of a chart that calls whatever the word is, with a handler.
fn chart_p_image() -> Vec<u8> {
    translated(&text_of(&chart_p())).expect("a valid chart")
}

fn handled_image() -> Vec<u8> {
    translated(&text_of(&with_handler())).expect("a valid chart")
}

fn table(image: &[u8]) -> Vec<u8> {
    table_of(&image_from_text(image).expect("an accepted image")).concat()
}

/// Four fresh spindles, with the images that they have.
struct Head {
    states: Vec<State>,
    taken: usize,
}

fn head(sizes: [usize; 4]) -> Head {
    let states = sizes.iter().map(|size| fresh_state(*size).expect("a good size")).collect();
    Head { states, taken: 4 }
}

impl Head {
    /// The tick of a spindle by the image and, from the same head, by the table: the same.
    fn spin(&mut self, spindle: usize, image: &[u8], word: u16) -> Result<Tick, Refusal> {
        let (mut states, mut taken) = (self.states.clone(), self.taken);
        let live = live_spin(&mut states, &mut taken, spindle, &table(image), word);
        let ticked = spin(&mut self.states, &mut self.taken, spindle, image, word);
        assert_eq!((&live, &states, taken), (&ticked, &self.states, self.taken));
        ticked
    }

    /// So many ticks of a spindle that are not refused.
    fn spins(&mut self, spindle: usize, image: &[u8], word: u16, count: usize) -> Vec<u8> {
        let codes = (0..count).map(|_| self.spin(spindle, image, word).expect("it is not refused").code);
        codes.collect()
    }

    fn depths(&self) -> Vec<u8> {
        self.states.iter().map(|state| state.depth).collect()
    }

    /// A refused tick, by image and table, leaves all as it was.
    fn refused(&mut self, refusal: Refusal, spindle: usize, image: &[u8], word: u16) {
        let (states, taken) = (self.states.clone(), self.taken);
        assert_eq!(self.spin(spindle, image, word), Err(refusal));
        assert_eq!((&self.states, self.taken), (&states, taken));
    }
}

#[test]
fn a_call_takes_a_place_and_a_return_gives_it_back() {
    let image = chart_p_image();
    let mut head = head([3; 4]);
    // home, the call of scheme 1, the condition, which leads to a call, that call, the condition, two returns, home
    let words = [0, 0, 1, 0, 0, 0, 0, 0];
    let taken = [4, 5, 5, 6, 6, 5, 4, 4];
    let codes = [0x04, 0x12, 0x00, 0x12, 0x00, 0x03, 0x03, 0x04];
    for ((word, taken), code) in words.into_iter().zip(taken).zip(codes) {
        let ticked = head.spin(2, &image, word);
        assert_eq!((ticked.map(|tick| tick.code), head.taken), (Ok(code), taken));
        assert_eq!(head.depths(), [1, 1, taken as u8 - 3, 1]);
    }
}

#[test]
fn each_spindle_has_an_image_of_its_own() {
    let (plain, handled) = (chart_p_image(), handled_image());
    let mut head = head([4, 2, 4, 2]);
    assert_eq!(head.spins(0, &plain, 0, 3), [0x04, 0x12, 0x00]);
    assert_eq!(head.spins(1, &handled, 0, 3), [0x04, 0x12, 0x60]);
    assert_eq!(head.spins(3, &handled, 0, 2), [0x04, 0x12]);
    assert_eq!((head.depths(), head.taken), (vec![2, 1, 1, 2], 6));
    // what stands in the others is not looked at
    (head.states[0].size, head.states[2].places[31]) = (99, 7);
    assert_eq!(head.spins(1, &handled, 0, 2), [0x00, 0x03]);
    assert_eq!((head.depths(), head.taken, head.states[0].size), (vec![2, 1, 1, 2], 6, 99));
}

#[test]
fn a_drop_gives_back_all_places_but_one() {
    let image = handled_image();
    let mut head = head([9; 4]);
    head.spins(0, &image, 0, 9);
    assert_eq!((head.depths(), head.taken), (vec![9, 1, 1, 1], 12));
    assert_eq!(head.spins(0, &image, 0, 1), [0x60]);
    assert_eq!((head.depths(), head.taken), (vec![1, 1, 1, 1], 4));
    // the handler's own return is at depth 1, and gives back nothing
    assert_eq!(head.spins(0, &image, 0, 2), [0x00, 0x03]);
    assert_eq!(head.taken, 4);
}

/// Spindles 0 to 2 of 31, 16 and 16 places, and spindle 3 alone.
fn nearly_full(image: &[u8]) -> Head {
    let mut head = head([31, 16, 16, 8]);
    for (spindle, count) in [(0, 31), (1, 16), (2, 16)] {
        head.spins(spindle, image, 0, count);
    }
    assert_eq!((head.depths(), head.taken), (vec![31, 16, 16, 1], 64));
    head
}

#[test]
fn a_call_that_finds_no_place_is_refused_until_one_is_given_back() {
    let image = handled_image();
    let mut head = nearly_full(&image);
    // a home tick needs no place, and then the call does
    assert_eq!(head.spins(3, &image, 0, 1), [0x04]);
    for _ in 0..3 {
        head.refused(Refusal::NoPlace, 3, &image, 0);
    }
    // a drop needs none and gives back fifteen
    assert_eq!(head.spins(1, &image, 0, 1), [0x60]);
    assert_eq!((head.depths(), head.taken), (vec![31, 1, 16, 1], 49));
    assert_eq!(head.spins(3, &image, 0, 7), [0x12; 7]);
    assert_eq!((head.depths(), head.taken), (vec![31, 1, 16, 8], 56));
}

#[test]
fn a_call_on_a_full_stack_gets_17_and_not_26() {
    let image = chart_p_image();
    let mut head = head([32, 32, 2, 2]);
    // home and the call of scheme 1, then the condition and its call for each place more
    for (spindle, depth) in [(0, 32), (1, 28), (2, 2), (3, 2)] {
        head.spins(spindle, &image, 1, 2 * (depth - 1));
    }
    assert_eq!((head.depths(), head.taken), (vec![32, 28, 2, 2], 64));
    for spindle in [0, 1, 2, 3] {
        assert_eq!(head.spins(spindle, &image, 1, 1), [0x00]);
    }
    for spindle in [0, 2, 3] {
        head.refused(Refusal::Full { ticks: 0 }, spindle, &image, 0);
    }
    head.refused(Refusal::NoPlace, 1, &image, 0);
}

#[test]
fn a_return_goes_ahead_while_all_places_are_taken() {
    let image = chart_p_image();
    let mut head = head([32, 32, 2, 2]);
    for (spindle, depth) in [(0, 32), (1, 28), (2, 2), (3, 2)] {
        head.spins(spindle, &image, 1, 2 * (depth - 1));
    }
    assert_eq!(head.spins(2, &image, 0, 2), [0x00, 0x03]);
    assert_eq!((head.depths(), head.taken), (vec![32, 28, 1, 2], 63));
    assert_eq!(head.spins(1, &image, 1, 2), [0x00, 0x12]);
    assert_eq!((head.depths(), head.taken), (vec![32, 29, 1, 2], 64));
}

/// 25 is tried first of all, then the image, then the list with its record and the spindle's own state.
#[test]
fn refusals_come_in_their_order() {
    let image = chart_p_image();
    let mut states = vec![State::NONE; 3];
    for spindle in [4, 255, 256, 1 << 32, usize::MAX] {
        assert_eq!(spin(&mut states, &mut 99, spindle, &[], 0), Err(Refusal::NoSpindle));
        assert_eq!(live_spin(&mut states, &mut 99, spindle, &[], 0), Err(Refusal::NoSpindle));
    }
    assert_eq!(spin(&mut states, &mut 99, 3, &image[1..], 0), Err(Refusal::BadLength));
    assert_eq!(live_spin(&mut states, &mut 99, 3, &[], 0), Err(Refusal::BadHeader));
    assert_eq!(spin(&mut states, &mut 99, 3, &image, 0), Err(Refusal::Unfit));
    assert_eq!(live_spin(&mut states, &mut 99, 3, &table(&image), 0), Err(Refusal::Unfit));
    assert_eq!(states, [State::NONE; 3]);
}

/// Each ground of 15 by itself; with the grounds mended the same call is made.
#[test]
fn a_list_out_of_order_is_refused() {
    let image = chart_p_image();
    for length in [0, 1, 2, 3, 5, 8] {
        let mut head = Head { states: vec![fresh_state(3).expect("a good size"); length], taken: length };
        head.refused(Refusal::Unfit, 0, &image, 0);
    }
    for taken in [0, 3, 5, 64, 65, 260, 65_540, (1 << 32) + 4, usize::MAX] {
        let mut head = Head { taken, ..head([3; 4]) };
        head.refused(Refusal::Unfit, 0, &image, 0);
    }
    // depths that sum to the record, which is above 64 or holds a byte of it
    for (depth, taken) in [(62, 65), (255, 258), (253, 0), (255, 2)] {
        let mut head = head([3; 4]);
        (head.states[1].depth, head.taken) = (depth, taken);
        head.refused(Refusal::Unfit, 0, &image, 0);
    }
    let mut head = head([3; 4]);
    head.states[0].places[2] = 1;
    head.refused(Refusal::Unfit, 0, &image, 0);
    // a spindle that takes no place at all, or all but three
    assert_eq!(head.spins(1, &image, 0, 1), [0x04]);
    (head.states[2].depth, head.taken) = (0, 3);
    assert_eq!(head.spins(3, &image, 0, 1), [0x04]);
    (head.states[2].depth, head.taken) = (61, 64);
    head.refused(Refusal::NoPlace, 1, &image, 0);
}

/// What paper 02 counts: finished calls, returns above depth 1, and places given back by drops. A code 60 is no call.
#[derive(Default)]
struct Tally {
    calls: usize,
    returns: usize,
    given_back: usize,
}

impl Tally {
    fn note(&mut self, code: u8, depth: usize) {
        match code {
            0x12..=0x20 | 0x42..=0x50 => self.calls += 1,
            0x03 if depth > 1 => self.returns += 1,
            0x60 => self.given_back += depth - 1,
            _ => {}
        }
    }

    fn places(&self) -> usize {
        4 + self.calls - self.returns - self.given_back
    }
}

/// An image of any kind that is accepted: of a chart, patched, or invented.
fn any_image(random: &mut Random) -> Image {
    loop {
        let image = if random.once_in(3) { images::accepted(random) } else { deep(random).1 };
        if image_from_text(&text_of(&image.frames())).is_ok() {
            return image;
        }
    }
}

/// From four fresh states, over lists of calls with any images, which may change for a spindle from call to call: the depths sum to what
/// is counted, which is the record, and never pass 64.
#[test]
fn the_depths_sum_to_what_is_counted() {
    let (mut most, mut answers) = (0, [0; 27]);
    for seed in 0..1_500 {
        let random = &mut Random::new(seed);
        let sizes = std::array::from_fn(|_| random.pick(&[2, 16, 32]));
        let (mut head, mut tally) = (head(sizes), Tally::default());
        let mut tables: Vec<Vec<u8>> = (0..4).map(|_| table_of(&any_image(random)).concat()).collect();
        for word in runs::words(random, 200) {
            let spindle = random.below(4);
            if random.once_in(60) {
                tables[spindle] = table_of(&any_image(random)).concat();
            }
            let depth = usize::from(head.states[spindle].depth);
            let ticked = live_spin(&mut head.states, &mut head.taken, spindle, &tables[spindle], word);
            answers[usize::from(ticked.number())] += 1;
            if let Ok(tick) = ticked {
                tally.note(tick.code, depth);
            }
            let sum = head.depths().into_iter().map(usize::from).sum::<usize>();
            assert_eq!((sum, head.taken), (tally.places(), sum), "seed {seed}");
            most = most.max(sum);
        }
    }
    assert_eq!(most, 64);
    assert!([0, 15, 17, 18, 26].iter().all(|number| answers[*number] > 100), "{answers:?}");
}

/// What each spindle's finished ticks emit is what a walk of its own emits over their words: the walks judge the reference.
#[test]
fn finished_ticks_are_those_of_the_spindles_own_walks() {
    let summary = compare_spins(&Reference, 7, 3_000).unwrap_or_else(|difference| panic!("{difference}"));
    for number in [17, 22, 25, 26] {
        assert!(summary.count("spins", number) > 1_000, "{summary}");
    }
    assert!(summary.full_drops("spins") > 20 && summary.swapped("spins") > 1_000, "{summary}");
}

/// Anything but the depths of the other three may change, and the same is answered, written and recorded; and they stay.
#[test]
fn of_the_other_spindles_only_the_depths_are_read() {
    let mut answers = [0; 27];
    for seed in 0..20_000 {
        let random = &mut Random::new(seed);
        let image = any_image(random);
        let own = states::state(random, image.shape());
        let (given, filler) = (lent(random, &own), lent(random, &own));
        let mut changed = given.clone();
        for (at, state) in changed.states.iter_mut().enumerate().filter(|(at, _)| *at != given.spindle) {
            let other = filler.states.get(at).copied().unwrap_or(State::NONE);
            *state = State { depth: state.depth, ..other };
        }
        let (text, word) = (text_of(&image.frames()), random.number() as u16);
        let made = |start: &Lent| {
            let Lent { mut states, mut taken, spindle } = start.clone();
            let ticked = spin(&mut states, &mut taken, spindle, &text, word);
            let own = states.get(spindle).copied();
            if let Some(state) = states.get_mut(spindle) {
                *state = start.states[spindle];
            }
            assert_eq!(states, start.states, "seed {seed}");
            (ticked, own, taken)
        };
        assert_eq!(made(&given), made(&changed), "seed {seed}");
        answers[usize::from(made(&given).0.number())] += 1;
    }
    assert!([0, 15, 17, 18, 25, 26].iter().all(|number| answers[*number] > 100), "{answers:?}");
}
