//! Scenarios that a trace saves run again as the trace did: random charts, words, swaps and stacks, with names that are words of the
//! scenario's own.

mod shared;

use comparison::generate::{charts, runs, Random};
use fairleadow::{Library, Proved, Refusal, IMAGE_TEXT};
use office::plan::Plan;
use office::scenario::{play, written, Played, Scenario, Stage, Vocabulary};
use office::source::from_bytes;
use office::trace::swaps::Swap;
use office::trace::{trace, Happening, Tick};
use reference::frames::text_of;
use shared::{example, file, run};

const CHARTS: u64 = 3_000;

/// Words that mean something in a scenario, and others.
const NAMES: [&str; 24] = [
    "node", "not", "only", "output", "code", "refusal", "until", "expect", "at", "last", "most", "of",
    "swap", "places", "home", "plain", "drop", "wood", "größe", "_1", "FFFF", "木材", "x99", "s",
];

/// Names for some of everything, each of its kind once.
fn name_some(random: &mut Random, plan: &mut Plan) {
    let mut given = |highest: usize, lowest: usize| -> Vec<(usize, String)> {
        let mut names: Vec<&str> = NAMES.to_vec();
        let mut named = Vec::new();
        for number in lowest..highest {
            if !names.is_empty() && random.once_in(2) {
                named.push((number, names.remove(random.below(names.len())).to_string()));
            }
        }
        named
    };
    plan.names.conditions = given(16, 0).into_iter().map(|(number, name)| (number as u8, name)).collect();
    plan.names.operations = given(32, 0).into_iter().map(|(number, name)| (number as u8, name)).collect();
    plan.names.schemes = given(17, 1).into_iter().map(|(number, name)| (number as u8, name)).collect();
    plan.names.nodes = given(plan.nodes.len(), 0).into_iter().collect();
}

/// Some swaps that are allowed, in the order of their ticks.
fn swaps(random: &mut Random, plan: &Plan, ticks: usize) -> Vec<Swap> {
    let (schemes, handler) = (usize::from(plan.schemes()), usize::from(plan.handler()));
    if schemes < 2 {
        return Vec::new();
    }
    let any = |_| Swap {
        tick: random.below(ticks),
        number: random.within(2, schemes),
        scheme: random.within(2, schemes),
    };
    let mut swaps: Vec<Swap> = (0..4).map(any).filter(|swap| swap.number != handler).collect();
    swaps.sort_by_key(|swap| swap.tick);
    swaps
}

fn played(plan: &Plan, text: &str) -> (Scenario, Played) {
    let told = |problem: office::problem::Problem| -> ! { panic!("{problem}\n{text}") };
    let scenario =
        Scenario::read(text.as_bytes(), &Vocabulary::of(plan)).unwrap_or_else(|problem| told(problem));
    let image = plan.image.as_ref().expect("an image");
    let stage = Stage { image, names: &plan.names, plan: Some(plan) };
    let played = play(&scenario, stage, scenario.places.expect("it names them"));
    (scenario, played.unwrap_or_else(|problem| told(problem)))
}

/// What a tick was, but for how it was come to.
fn shown(tick: &Tick) -> (u16, u32, u8, Vec<Swap>, usize) {
    (tick.word, tick.mask, tick.code, tick.swaps.clone(), tick.node())
}

#[test]
fn a_saved_trace_is_run_again() {
    let (mut ticks, mut swapped, mut full, mut drops) = (0, 0, 0, 0);
    for seed in 0..CHARTS {
        let random = &mut Random::new(seed);
        let mut plan = Plan::read(from_bytes(&text_of(&charts::chart(random)))).expect("an accepted chart");
        if plan.image.is_err() {
            continue;
        }
        name_some(random, &mut plan);
        let count = random.within(1, 60);
        let words: Vec<u16> = match random.below(3) {
            // long rows of alike words, and those that the chart asks alone
            0 => (0..count).map(|tick| if tick / 7 % 2 == 0 { 0 } else { plan.tested }).collect(),
            _ => runs::words(random, count),
        };
        let places = random.pick(&[1, 2, 3, 32]);
        let swaps = swaps(random, &plan, words.len());
        let first = trace(&plan, places, &words, &swaps).expect("an accepted chart");
        for expecting in [false, true] {
            let text = written(&plan, &first, "a trace", expecting).expect("a short one");
            let (scenario, played) = played(&plan, &text);
            assert_eq!(scenario.places, Some(places));
            // a full stack that nobody expects is a difference
            let differ = usize::from(first.stopped.is_some() && !expecting);
            assert_eq!((played.differences.len(), &played.unmet), (differ, &None), "{text}");
            assert!(played.held >= if expecting { 2 * first.ticks.len() } else { 0 });
            let again = trace(&plan, places, &played.words, &played.swaps).expect("an accepted chart");
            assert!(first.ticks.iter().map(shown).eq(again.ticks.iter().map(shown)), "{text}");
            let ended = |trace: &office::trace::Trace| {
                trace.stopped.as_ref().map(|stopped| (stopped.refusal, stopped.word, stopped.swaps.clone()))
            };
            assert_eq!(ended(&first), ended(&again), "{text}");
            // what is saved of it is the same text
            assert_eq!(written(&plan, &again, "a trace", expecting).as_ref(), Ok(&text));
        }
        ticks += first.ticks.len();
        swapped += first.ticks.iter().map(|tick| tick.swaps.len()).sum::<usize>();
        full += usize::from(first.stopped.is_some());
        drops += first.ticks.iter().filter(|tick| tick.happening() == Happening::Drop).count();
    }
    println!("{ticks} ticks, {swapped} swaps, {full} ended by 17, {drops} drops");
    assert!(ticks > 40_000 && swapped > 1_000 && full > 100 && drops > 100);
}

/// A step that goes on until an output is on ends in the ticks that have it in the masks of a run by the same word.
#[test]
fn a_step_ends_where_the_masks_say() {
    let (mut met, mut missed) = (0, 0);
    for seed in 0..CHARTS {
        let random = &mut Random::new(seed);
        let chart = text_of(&charts::chart(random));
        let plan = Plan::read(from_bytes(&chart)).expect("an accepted chart");
        if plan.image.is_err() {
            continue;
        }
        let (word, output, most) = (random.below(0x10000) as u16, random.below(6), random.within(1, 40));
        let (mut image, mut masks, mut codes) = ([0; IMAGE_TEXT], [0; 90], [0; 90]);
        let made = Proved.dry_run(&chart, 32, &mut image, &[word; 90], &mut masks, &mut codes);
        let made = made.unwrap_or_else(Refusal::ticks);
        let step = format!("0x{word:X} until output y{output} at most {most}\n");
        let (_, played) = played(&plan, &format!("places 32\n{}", step.repeat(2)));
        let on: Vec<usize> = (0..made).filter(|tick| masks[*tick] >> output & 1 == 1).collect();
        let is_near = |before: usize, tick: &usize| *tick < before + most;
        match (on.first().filter(|tick| is_near(0, tick)), on.get(1)) {
            (Some(first), Some(second)) if is_near(first + 1, second) => {
                assert_eq!((played.words.len(), &played.unmet), (second + 1, &None));
                met += 1;
            }
            (first, _) => {
                let ended = first.map_or(0, |first| first + 1) + most;
                assert_eq!(played.words.len(), ended.min(made + 1), "{step}");
                assert_eq!(played.unmet.is_some(), ended <= made, "{step}");
                missed += 1;
            }
        }
    }
    assert!(met > 100 && missed > 100, "{met} met, {missed} missed");
}

/// The same by the command, from each source of words.
#[test]
fn the_command_saves_what_it_ran() {
    let saved = |name: &str| file(name, b"").to_string_lossy().into_owned();
    for (chart, given) in [
        ("bore.txt", vec!["--words", "random:7", "--ticks", "200"]),
        ("bore.txt", vec!["--scenario", "bore.scenario"]),
        ("bore.chart", vec!["--words", "-*8,x3,-*3", "--places", "2"]),
        ("swapped.txt", vec!["--words", "count", "--swap", "3:roughing=finer,11:2=2"]),
        ("swapped.txt", vec!["--scenario", "swapped.scenario"]),
        ("full_stack.txt", vec!["--words", "wood", "--ticks", "30", "--places", "2"]),
        ("roughing.txt", vec!["--words", "wood", "--ticks", "30", "--places", "3"]),
    ] {
        let (chart, path) = (example(chart), saved("saved_by_command.scenario"));
        let given: Vec<String> = given
            .into_iter()
            .map(|word| if word.ends_with(".scenario") { example(word) } else { word.to_string() })
            .collect();
        let given: Vec<&str> = given.iter().map(String::as_str).collect();
        for more in [&[][..], &["--expect"]] {
            let first = run(&[&["trace", &chart], &given[..], &["--save", &path, "--force"], more].concat());
            let again = run(&["trace", &chart, "--scenario", &path]);
            let table = |printed: &str| printed.lines().skip(1).map(String::from).collect::<Vec<String>>();
            assert_eq!(table(&again.printed), table(&first.printed));
            assert_eq!((again.status, &again.said), (first.status, &first.said));
            let tested = run(&["test", &chart, &path]);
            // a full stack that nobody expects is told
            assert_eq!(tested.status, i32::from(first.status == 1 && more.is_empty()), "{}", tested.printed);
        }
    }
}
