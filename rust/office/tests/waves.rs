//! Waves: those of random charts and their images, of refused and of empty runs, read back by a small reader and by GTKWave's tools.

mod shared;

use std::collections::BTreeMap;
use std::process::Command;

use comparison::generate::{charts, runs, Random};
use office::formats::record::{Record, Step};
use office::formats::{ticks, vcd};
use office::labels::run::run as label_run;
use office::plan::Plan;
use office::source::from_bytes;
use office::subject::Subject;
use office::trace::swaps::Swap;
use office::trace::{trace, Happening};
use reference::frames::text_of;
use shared::readers::own;
use shared::{example, run};

const CHARTS: u64 = 400;

/// The signals of a dump by scope and name, each with its value at each time up to the last; x is none.
#[derive(Debug, PartialEq, Eq)]
struct Waves {
    end: usize,
    values: BTreeMap<(String, String), Vec<Option<u64>>>,
}

impl Waves {
    fn read(text: &str) -> Waves {
        let (head, body) = text.split_once("$enddefinitions").expect("definitions");
        let (mut scopes, mut signals) = (Vec::new(), BTreeMap::new());
        let words: Vec<&str> = head.split_whitespace().collect();
        for (at, word) in words.iter().enumerate() {
            match *word {
                "$scope" => scopes.push(words[at + 2].to_string()),
                "$upscope" => drop(scopes.pop()),
                "$var" => {
                    let scope = scopes.last().cloned().expect("a scope");
                    let known = signals.insert(words[at + 3], (scope, words[at + 4].to_string()));
                    assert_eq!(known, None, "a code for two signals");
                }
                _ => {}
            }
        }
        assert!(scopes.is_empty(), "{scopes:?}");
        let mut now: BTreeMap<&str, Option<u64>> = signals.keys().map(|code| (*code, None)).collect();
        let mut values: BTreeMap<&str, Vec<Option<u64>>> =
            signals.keys().map(|code| (*code, Vec::new())).collect();
        let mut time = 0;
        let mut words = body.split_whitespace();
        while let Some(word) = words.next() {
            let (first, rest) = word.split_at(1);
            if first == "$" {
                continue;
            }
            if first == "#" {
                let next = rest.parse().expect("a time");
                for _ in time..next {
                    now.iter().for_each(|(code, value)| {
                        values.get_mut(code).expect("a signal").push(*value);
                    });
                }
                time = next;
                continue;
            }
            let (value, code) = match first {
                "b" => (u64::from_str_radix(rest, 2).ok(), words.next().expect("a code")),
                _ => (first.parse().ok(), rest),
            };
            *now.get_mut(code).expect("a signal") = value;
        }
        let named = values.into_iter().map(|(code, values)| (signals[code].clone(), values));
        Waves { end: time, values: named.collect() }
    }

    fn at(&self, scope: &str, name: &str, time: usize) -> Option<u64> {
        self.values[&(scope.to_string(), name.to_string())][time]
    }
}

/// A dump holds each tick of a run, and the tick that was refused.
fn is_dumped(record: &Record, text: &str) {
    let (waves, names) = (Waves::read(text), record.names);
    assert_eq!(waves.end, record.steps.len() + usize::from(record.stop.is_some()));
    let bit = |mask: u32, number: u8| Some(u64::from(mask >> number & 1));
    let is_word = |time: usize, word: u16| {
        assert_eq!(waves.at("machine", "word", time), Some(u64::from(word)));
        for number in (0..16).filter(|number| record.tested >> number & 1 == 1) {
            let told = waves.at("conditions", &names.condition(number), time);
            assert_eq!(told, bit(u32::from(word), number));
        }
    };
    let is_place = |time: usize, place: &office::formats::record::Place| {
        let told = ["label", "scheme", "depth"].map(|name| waves.at("machine", name, time));
        let own = [u64::from(place.label), u64::from(place.scheme), place.open.len() as u64];
        assert_eq!(told, own.map(Some));
        if let Some(node) = place.node {
            assert_eq!(waves.at("machine", "node", time), Some(node as u64));
        }
    };
    for (time, Step { word, place, code, mask, results, .. }) in record.steps.iter().enumerate() {
        is_word(time, *word);
        is_place(time, place);
        assert_eq!(waves.at("machine", "code", time), Some(u64::from(*code)));
        assert_eq!(waves.at("machine", "refusal", time), Some(0));
        let mut told = 0;
        for output in (0..32).filter(|output| record.outputs >> output & 1 == 1) {
            told |= waves.at("outputs", &names.operation(output), time).expect("a value") << output;
        }
        assert_eq!(told, u64::from(*mask));
        for scheme in 1..=record.schemes {
            let told = waves.at("results", &names.scheme(scheme), time);
            assert_eq!(told, Some(u64::from(results[usize::from(scheme) - 1])));
        }
    }
    if let Some(stop) = &record.stop {
        let time = record.steps.len();
        is_word(time, stop.word);
        is_place(time, &stop.place);
        assert_eq!(waves.at("machine", "code", time), None);
        let refusal = stop.problem.refusal.map(|refusal| u64::from(refusal.number()));
        assert_eq!(waves.at("machine", "refusal", time), refusal);
    }
}

/// The dump after GTKWave's tools have made their own form of it and a dump again, or nothing where they are missing.
fn by_tools(name: &str, text: &str) -> Option<String> {
    let (dump, other) = (own(&format!("{name}.vcd"), text), own(&format!("{name}.fst"), ""));
    let made = |command: &str, arguments: &[&str]| match Command::new(command).args(arguments).output() {
        Ok(output) => {
            assert!(output.status.success(), "{command} does not take {name}");
            Some(String::from_utf8(output.stdout).expect("text"))
        }
        Err(_) => {
            println!("left out: there is no {command} to read waves by");
            None
        }
    };
    // it takes none in which no time goes by
    if !text.ends_with("$end\n") {
        made("vcd2lxt2", &[&dump, &own(&format!("{name}.lxt"), "")])?;
    }
    made("vcd2fst", &[&dump, &other])?;
    made("fst2vcd", &["-f", &other])
}

/// Names of letters that not every program knows.
fn name_some(random: &mut Random, plan: &mut Plan) {
    let names = ["größe", "木材", "_1", "wood", "x"];
    for number in 0..16_u8 {
        if random.once_in(3) {
            let name = format!("{}{number}_", random.pick(&names));
            plan.names.conditions.insert(number, name.clone());
            plan.names.operations.insert(number, name.clone());
            plan.names.schemes.insert(number + 1, name);
        }
    }
}

#[test]
fn waves_are_the_trace() {
    let (mut ticks, mut full, mut drops, mut swapped, mut read) = (0, 0, 0, 0, 0);
    for seed in 0..CHARTS {
        let random = &mut Random::new(seed);
        let mut plan = Plan::read(from_bytes(&text_of(&charts::chart(random)))).expect("an accepted chart");
        let Ok(image) = plan.image.clone() else { continue };
        name_some(random, &mut plan);
        let (count, places) = (random.within(0, 60), random.pick(&[1, 2, 3, 32]));
        let words = runs::words(random, count);
        let highest = usize::from(plan.schemes());
        let swaps = match count > 5 && highest > 1 && plan.handler() == 0 {
            true => vec![Swap { tick: 5, number: highest, scheme: 2 }],
            false => Vec::new(),
        };
        let traced = trace(&plan, places, &words, &swaps).expect("a trace");
        let record = Record::of_chart("a chart".to_string(), &plan, &traced, None).expect("an image");
        let text = vcd::text(&record);
        is_dumped(&record, &text);
        // the same of its image
        let subject = Subject::without_names(image.clone());
        let own = label_run(&image, places, &words, &swaps).expect("a run");
        let own = Record::of_image("an image".to_string(), &subject, &own, None);
        is_dumped(&own, &vcd::text(&own));
        assert_eq!(own.steps.len(), record.steps.len());
        if seed % 40 == 0
            && !record.steps.is_empty()
            && let Some(again) = by_tools("waves", &text)
        {
            is_dumped(&record, &again);
            read += 1;
        }
        ticks += record.steps.len();
        full += usize::from(record.stop.is_some());
        drops += record.steps.iter().filter(|step| step.happening == Happening::Drop).count();
        swapped += record.steps.iter().filter(|step| !step.swaps.is_empty()).count();
    }
    println!("{ticks} ticks, {full} refused, {drops} drops, {swapped} swaps; {read} read by tools");
    assert!(ticks > 5_000 && full > 20 && drops > 20 && swapped > 20);
}

/// A run of no tick has signals without values, a heading, and no ticks.
#[test]
fn a_run_of_no_tick_is_told() {
    let plan = office::source::load(example("bore.txt")).and_then(Plan::read).expect("an example");
    let none = trace(&plan, 32, &[], &[]).expect("a trace");
    let record = Record::of_chart("none $end".to_string(), &plan, &none, None).expect("an image");
    is_dumped(&record, &vcd::text(&record));
    assert_eq!(ticks::csv(&record).lines().count(), 1);
    assert!(ticks::json(&record).contains("\"ticks\":[],\"refused\":null"));
    by_tools("none", &vcd::text(&record));
}

/// The command's dump, of a chart, of an image, with a name that holds what would end a comment, and of a run that is refused.
#[test]
fn the_command_dumps_waves() {
    let text = std::fs::read_to_string(example("full_stack.txt")).expect("an example");
    let odd = own("a $end, \"größe\".txt", &text);
    for (given, status, times) in [
        (vec!["trace", &odd, "--places", "2", "--words", "0,0,4,4,4,0,0,0"], 0, 8),
        (vec!["trace", &example("full_stack.image"), "--places", "2", "--words", "0,0,4,4,4,0"], 0, 6),
        (vec!["trace", &example("roughing.txt"), "--places", "2", "--words", "wood*9"], 1, 4),
    ] {
        let ran = run(&[&given[..], &["--format", "vcd"]].concat());
        assert_eq!(ran.status, status, "{}", ran.said);
        let waves = Waves::read(&ran.printed);
        assert_eq!(waves.end, times, "{}", ran.printed);
        if let Some(again) = by_tools("command", &ran.printed) {
            assert_eq!(Waves::read(&again), waves);
        }
    }
}
