//! The ticks of a run as waves, a value change dump of IEEE 1364: a unit of time is a tick.

use std::fmt::Write;

use super::record::{Place, Record};

/// A signal: the scope that it stands in, its name, and how many bits it has.
struct Signal {
    scope: &'static str,
    name: String,
    bits: usize,
}

/// A value, or that there is none, which a dump has as x.
type Value = Option<u64>;

/// The signals of a run, and beside each what it has at one time.
struct Waves {
    signals: Vec<Signal>,
    conditions: Vec<u8>,
    outputs: Vec<u8>,
    schemes: u8,
    has_nodes: bool,
}

/// The numbers of the bits of a mask.
fn bits(mask: u32) -> Vec<u8> {
    (0..32).filter(|bit| mask >> bit & 1 == 1).collect()
}

impl Waves {
    fn of(record: &Record) -> Waves {
        let names = record.names;
        let (conditions, outputs) = (bits(u32::from(record.tested)), bits(record.outputs));
        let has_nodes = record.kind == "chart";
        let signal = |scope, name: String, bits| Signal { scope, name, bits };
        let node = has_nodes.then(|| signal("machine", "node".to_string(), 9));
        let machine = [("word", 16), ("label", 8), ("scheme", 8), ("depth", 8), ("code", 8), ("refusal", 8)];
        let machine = machine.map(|(name, bits)| signal("machine", name.to_string(), bits));
        let conditions_of = conditions.iter().map(|number| signal("conditions", names.condition(*number), 1));
        let outputs_of = outputs.iter().map(|number| signal("outputs", names.operation(*number), 1));
        let results_of = (1..=record.schemes).map(|scheme| signal("results", names.scheme(scheme), 1));
        let signals =
            machine.into_iter().chain(node).chain(conditions_of).chain(outputs_of).chain(results_of);
        Waves { signals: signals.collect(), conditions, outputs, schemes: record.schemes, has_nodes }
    }

    /// What the signals have in a tick; of one that was refused there is no code, no output and no result.
    fn values(
        &self,
        word: u16,
        place: &Place,
        refusal: u8,
        made: Option<(u8, u32, [bool; 16])>,
    ) -> Vec<Value> {
        let number = |number: u8| Some(u64::from(number));
        let code = made.and_then(|(code, ..)| number(code));
        let depth = Some(place.open.len() as u64);
        let machine =
            [Some(u64::from(word)), number(place.label), number(place.scheme), depth, code, number(refusal)];
        let node = self.has_nodes.then_some(place.node.map(|node| node as u64));
        let conditions = self.conditions.iter().map(|number| Some(u64::from(word >> number & 1)));
        let outputs = self.outputs.iter().map(|bit| made.map(|(_, mask, _)| u64::from(mask >> bit & 1)));
        let results =
            (0..usize::from(self.schemes)).map(|at| made.map(|(.., results)| u64::from(results[at])));
        machine.into_iter().chain(node).chain(conditions).chain(outputs).chain(results).collect()
    }

    /// The scopes with their signals.
    fn declared(&self) -> String {
        let mut text = String::new();
        for (at, signal) in self.signals.iter().enumerate() {
            if at == 0 || self.signals[at - 1].scope != signal.scope {
                let close = if at == 0 { "" } else { "$upscope $end\n" };
                let _ = writeln!(text, "{close}$scope module {} $end", signal.scope);
            }
            let _ = writeln!(text, "$var wire {} {} {} $end", signal.bits, code(at), signal.name);
        }
        text + "$upscope $end\n"
    }

    /// The lines of what differs from the values before.
    fn changes(&self, before: &[Value], now: &[Value]) -> String {
        let changed = (0..now.len()).filter(|at| before.get(*at) != Some(&now[*at]));
        changed
            .map(|at| match (self.signals[at].bits, now[at]) {
                (1, Some(value)) => format!("{value}{}\n", code(at)),
                (1, None) => format!("x{}\n", code(at)),
                (_, Some(value)) => format!("b{value:b} {}\n", code(at)),
                (_, None) => format!("bx {}\n", code(at)),
            })
            .collect()
    }
}

/// The code that stands for a signal: printable characters, the lowest digit first.
fn code(mut at: usize) -> String {
    let mut text = String::new();
    loop {
        text.push(char::from(b'!' + (at % 94) as u8));
        at /= 94;
        if at == 0 {
            return text;
        }
    }
}

/// A text in a comment, which a $ could end.
fn comment(text: &str) -> String {
    text.replace('$', "_")
}

/// The whole run. After the last tick stands the time at which it ends.
pub fn text(record: &Record) -> String {
    let waves = Waves::of(record);
    let title = comment(&record.title);
    let mut text = format!("$comment {title}: a unit of time is a tick, whatever it lasts $end\n");
    text.push_str("$timescale 1 s $end\n$scope module fairleadow $end\n");
    text.push_str(&waves.declared());
    text.push_str("$upscope $end\n$enddefinitions $end\n");
    let made = record
        .steps
        .iter()
        .map(|step| waves.values(step.word, &step.place, 0, Some((step.code, step.mask, step.results))));
    let stopped = record.stop.as_ref().map(|stop| {
        let number = stop.problem.refusal.map_or(0, |refusal| refusal.number());
        waves.values(stop.word, &stop.place, number, None)
    });
    let (mut before, mut time) = (Vec::new(), 0);
    for now in made.chain(stopped) {
        let changes = waves.changes(&before, &now);
        match time {
            0 => text.push_str(&format!("#0\n$dumpvars\n{changes}$end\n")),
            _ if changes.is_empty() => {}
            _ => text.push_str(&format!("#{time}\n{changes}")),
        }
        (before, time) = (now, time + 1);
    }
    // without a tick all signals are there, and none has a value
    if time == 0 {
        let none = waves.changes(&[], &vec![None; waves.signals.len()]);
        return text + &format!("#0\n$dumpvars\n{none}$end\n");
    }
    text + &format!("#{time}\n")
}
