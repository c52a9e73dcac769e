//! What lies on the bench, and the ticks of its run, as the page takes them.

use fairleadow::PLACES;
use office::formats::json::Json;
use office::names::Names;
use office::problem::Problem;
use office::trace::swaps::Swap;
use office::verdicts::Held;

use crate::drawing::svg;
use crate::piece::{Piece, Run, Served};

/// A refusal or a fault in the words of the commands, with its place, and apart the sentence that they begin with and the line that they
/// quote then.
pub fn problem(problem: &Problem) -> Vec<(&'static str, Json)> {
    vec![
        ("problem", problem.to_string().into()),
        ("line", problem.line.into()),
        ("column", problem.column.into()),
        ("sentence", problem.words.as_str().into()),
        ("excerpt", problem.excerpt.as_deref().into()),
    ]
}

/// A number with its name.
fn named(number: u8, name: String) -> Json {
    Json::Record(vec![("number", usize::from(number).into()), ("name", name.into())])
}

/// What its ticks stand for, the conditions that are tested, the outputs that there are, the schemes and the drawing.
pub fn piece(piece: &dyn Piece) -> Json {
    let names: &Names = piece.names();
    let (tested, outputs) = (piece.tested(), piece.outputs());
    let conditions = (0..16).filter(|number| tested >> number & 1 == 1);
    let conditions: Vec<Json> = conditions.map(|number| named(number, names.condition(number))).collect();
    let outputs = (0..32).filter(|number| outputs >> number & 1 == 1);
    let outputs: Vec<Json> = outputs.map(|number| named(number, names.operation(number))).collect();
    let (swapped, servers) = swappable(piece);
    let schemes = |numbers: Vec<u8>| -> Vec<Json> {
        numbers.into_iter().map(|scheme| named(scheme, names.scheme(scheme))).collect()
    };
    Json::Record(vec![
        ("place", piece.place().into()),
        ("conditions", conditions.into()),
        ("outputs", outputs.into()),
        ("swapped", schemes(swapped).into()),
        ("servers", schemes(servers).into()),
        ("drawing", svg(&piece.sheet()).into()),
    ])
}

/// The schemes whose calls another may serve, and those that may serve them, as the library answers at the beginning of a run.
fn swappable(piece: &dyn Piece) -> (Vec<u8>, Vec<u8>) {
    let run = piece.begin(PLACES).ok();
    let may = |number: u8, scheme: u8| {
        let swap = Swap { tick: 0, number: number.into(), scheme: scheme.into() };
        run.as_ref().is_some_and(|run| run.may_swap(&[swap]).is_ok())
    };
    let numbers: Vec<u8> = (1..=piece.schemes()).filter(|number| may(*number, *number)).collect();
    let serves = |scheme: &u8| numbers.first().is_some_and(|number| may(*number, *scheme));
    let servers = (1..=piece.schemes()).filter(serves).collect();
    (numbers, servers)
}

/// How far a run is: its rows, the refusal that ended it, and where it stands.
pub fn state(run: &dyn Run) -> Vec<(&'static str, Json)> {
    let now = run.now();
    let top = now.last();
    vec![
        ("ticks", run.ticks().into()),
        ("rows", run.rows().into()),
        ("refusal", run.refusal().map(|refusal| refusal.to_string()).into()),
        ("node", top.map(|top| top.id.clone()).into()),
        ("at", top.map(|top| format!("{} of {}", top.at, top.scheme)).into()),
    ]
}

/// The cells of a row of the table, also of the refused tick, or nothing where there is no such row.
pub fn row(run: &dyn Run, number: usize) -> Option<Json> {
    run.cells(number).map(|cells| cells.to_vec().into())
}

/// One row with what it lights in the drawing: its box, the calls that wait, and what is taken.
pub fn tick(run: &dyn Run, number: usize) -> Json {
    let stack = run.open(number);
    let Some((top, waiting)) = stack.split_last() else { return Json::Null };
    let refusal = match number == run.ticks() {
        true => run.refusal().map(|refusal| refusal.to_string()),
        false => None,
    };
    let open = stack.iter().rev().map(|spot| {
        Json::Record(vec![("scheme", spot.scheme.as_str().into()), ("at", spot.at.as_str().into())])
    });
    let waiting: Vec<String> = waiting.iter().map(|spot| spot.id.clone()).collect();
    Json::Record(vec![
        ("cells", row(run, number).unwrap_or(Json::Null)),
        ("node", top.id.as_str().into()),
        ("waiting", waiting.into()),
        ("taken", run.taken(number).into()),
        ("served", run.served(number).map(served).into()),
        ("open", open.collect::<Vec<Json>>().into()),
        ("mask", (run.mask(number) as usize).into()),
        ("refusal", refusal.into()),
    ])
}

fn served(served: Served) -> Json {
    let Served { from, to, title } = served;
    Json::Record(vec![("from", from.into()), ("to", to.into()), ("title", title.into())])
}

/// How a scenario came out, in the words of `test`: whether it passed in a line, and each difference.
pub fn held(held: &Held) -> Json {
    let differences: Vec<String> =
        held.differences.iter().map(|difference| format!("\n  {difference}")).collect();
    Json::Record(vec![
        ("passed", held.differences.is_empty().into()),
        ("told", (held.told() + &differences.concat()).into()),
    ])
}

/// What no tick took, in words and by identifiers.
pub fn never(run: &dyn Run) -> Json {
    Json::Record(vec![("words", run.never().into()), ("left", run.left().into())])
}
