//! What other programs are told: tables and records read back by Python, and which formats a command takes.

mod shared;

use shared::readers::{own, read_by, ROWS};
use shared::{example, run};

/// Tables by Python: each row has as many cells as the heading, and the cells are those of the ticks.
#[test]
fn tables_are_read_back() {
    let text = std::fs::read_to_string(example("bore.txt")).expect("an example");
    let odd = own("a \"b\", größe.txt", &text);
    let told = run(&["trace", &odd, "--words", "0,0,0,8", "--format", "csv"]).printed;
    let Some(rows) = read_by("python3", &["-c", ROWS], &told) else { return };
    assert!(rows.lines().all(|row| row.starts_with("12 [")), "{rows}");
    let last =
        "12 ['3', '8', 'bore', 'bore_test', 'no', '5', 'plain', '0', '', '2', 'drilling > bore_test', '']";
    assert_eq!((rows.lines().count(), rows.lines().last()), (5, Some(last)));
    let prices = own("odd.prices", "drill 7\n");
    let tables = [
        (vec!["places", &odd, "no/such.txt"], 1, 3, "4"),
        (vec!["check", &odd, "no/such.txt"], 1, 3, "6"),
        (vec!["fillings", &odd], 0, 33, "6"),
        (vec!["bill", &odd, "--prices", &prices, "--words", "-*9"], 0, 3, "4"),
    ];
    for (given, status, count, cells) in tables {
        let ran = run(&[&given[..], &["--format", "csv"]].concat());
        let rows = read_by("python3", &["-c", ROWS], &ran.printed).expect("as before");
        assert_eq!((ran.status, rows.lines().count()), (status, count), "{rows}");
        assert!(rows.lines().all(|row| row.starts_with(&format!("{cells} ["))), "{rows}");
        let named = matches!(given[0], "places" | "check");
        assert!(!named || rows.contains("a \"b\", größe.txt"), "{rows}");
    }
}

/// What each cell of a table is, as Python reads it: the rows without their heading, cells with | between them.
fn cells(given: &[&str], status: i32) -> Option<Vec<String>> {
    let ran = run(&[given, &["--format", "csv"]].concat());
    assert_eq!(ran.status, status, "{}", ran.said);
    let script = "import csv, sys\nfor row in csv.reader(sys.stdin.buffer.read().decode().splitlines(True)):\n    print('|'.join(row))\n";
    read_by("python3", &["-c", script], &ran.printed).map(|told| told.lines().map(String::from).collect())
}

/// Each condition and result by which a tick took its row has a row of the table, and a tick without a row its own.
#[test]
fn the_table_of_a_reason_has_a_row_for_each_part() {
    let chart = example("bore.txt");
    let Some(told) = cells(&["why", &example("patched/roughing.image"), "--words", "0,0,4"], 0) else {
        return;
    };
    assert_eq!(
        told,
        [
            "tick|word|left|beneath|reached|row|part|name|value|refused",
            "2|4|4|2|5|3|asked for|x2|1|",
            "2|4|4|2|5|3|ruled out others|x6|0|",
            "2|4|4|2|5|3|ruled out others|x7|0|",
        ]
    );
    // by the result, and by nothing: a label of one row
    let told = cells(&["why", &chart, "--words", "-*5"], 0).expect("as before");
    assert_eq!(told[1..], ["4|0|1 end|2 test (function)|3 hole|0|asked for|result of bore_test|0|"]);
    let told = cells(&["why", &chart, "--words", "-*6"], 0).expect("as before");
    assert_eq!(told[1..], ["5|0|3 hole||0 end|2||||"]);
    let told = cells(&["why", &chart, "--words", "0,0"], 1).expect("as before");
    assert_eq!(told.len(), 2, "{told:?}");
    assert!(
        told[1].starts_with("1|0|2 test (function)||4 lower|||||tick 1, ") && !told[1].ends_with('|'),
        "{told:?}"
    );
}

/// The table of what scenarios took has the same counts as the record, a row for each node, arc, result and drop.
#[test]
fn the_table_of_a_test_has_what_was_taken() {
    let chart = example("full_stack.txt");
    let call = ["test", &chart, &example("full_stack.scenario")];
    let script = "\
c, names = told['coverage'], {n['node']: n['name'] for n in told['coverage']['nodes']}
shown = lambda value: '' if value is None else str(value)
for n in c['nodes']: print('node', n['scheme'], n['node'], n['name'], '', '', n['times'], sep='|')
for a in c['arcs']: print('result' if a['is_result'] else 'arc', a['from'], names[a['from']], shown(a['value']), names[a['to']], a['times'], sep='|')
for d in c['drops']: print('drop', d['node'], names[d['node']], '', '', d['times'], sep='|')
";
    for (call, sorts) in [
        (call, ["node", "arc", "drop"]),
        (["test", &example("bore.txt"), &example("bore.scenario")], ["node", "arc", "result"]),
    ] {
        let Some(told) = cells(&call, 0) else { return };
        let record = record(&call, 0, script).expect("as before");
        assert_eq!(told[0], "what|scheme|node|name|value|to|times");
        let without_scheme = |row: &String| {
            let mut cells: Vec<&str> = row.split('|').collect();
            if cells[0] != "node" {
                cells.remove(1);
            }
            cells.join("|")
        };
        let rows: Vec<String> = told[1..].iter().map(without_scheme).collect();
        assert_eq!(rows, record.lines().collect::<Vec<&str>>());
        let is_there = |sort: &&str| rows.iter().any(|row| row.starts_with(&format!("{sort}|")));
        assert!(sorts.iter().all(is_there), "{rows:?}");
    }
}

/// What a script of Python prints of a record, which is `told`.
fn record(given: &[&str], status: i32, script: &str) -> Option<String> {
    let ran = run(&[given, &["--format", "json"]].concat());
    assert_eq!(ran.status, status, "{}", ran.said);
    read_by(
        "python3",
        &["-c", &format!("import json, sys\ntold = json.loads(sys.stdin.buffer.read())\n{script}")],
        &ran.printed,
    )
}

#[test]
fn records_are_read_back() {
    let chart = std::fs::read_to_string(example("full_stack.txt")).expect("an example");
    let odd = own("it's \"so\", größe\\.txt", &chart);
    let full = ["--places", "2", "--words", "0,0,4,4,4,0,0,0"];
    let script = "\
print(told['schema'], told['file'], told['kind'], told['places'], told['refused'])
for t in told['ticks']:
    print(t['tick'], t['word'], t['name'], t['happening'], t['called'], t['code'], ' '.join(t['outputs']), len(t['open']))
print(sum(n['times'] for n in told['coverage']['nodes']), told['coverage']['drops'])
";
    let Some(told) = record(&[&["trace", &odd], &full[..]].concat(), 0, script) else { return };
    let wanted = "\
fairleadow-trace-1 it's \"so\", größe\\.txt chart 2 None
0 0 end home None 4  1
1 0 start call roughing 18 spindle 1
2 4 begin plain None 0  2
3 4 cut drop None 96 spindle feed cutter_in 2
4 4 back plain None 0 spindle cutter_back feed_stop 1
5 0 back plain None 0 spindle cutter_back feed_stop 1
6 0 end return None 3  1
7 0 end home None 4  1
";
    assert!(told.starts_with(wanted), "{told}");
    assert!(told.ends_with("[{'node': 1, 'times': 0}, {'node': 7, 'times': 1}]\n"), "{told}");
    for (given, status, script, wanted) in [
        (
            vec!["trace", &example("roughing.image"), "--places", "2", "--words", "0,0,4,4,4,4"],
            1,
            "r = told['refused']; print(len(told['ticks']), r['tick'], r['label'], r['problem']['refusal']['number'])",
            "",
        ),
        (
            vec!["check", &odd, &example("roughing.txt"), "no/such.txt"],
            1,
            "print([(bool(f['accepted']), len(f['errors']), len(f['warnings'])) for f in told['files']])",
            "[(True, 0, 1), (True, 0, 1), (False, 1, 0)]\n",
        ),
        (
            vec!["places", &example("bore.txt"), &example("roughing.txt")],
            1,
            "print([(f['places'], f['chain'], f['problem'] and f['problem']['line']) for f in told['files']])",
            "[(2, ['drilling', 'bore_test'], None), (None, None, 19)]\n",
        ),
        (
            vec!["bill", &example("roughing.txt"), "--prices", &example("roughing.prices"), "--words", "0,0,4,0,4,0,4,0,0,0,0,0,0,0,0,0,0"],
            0,
            "print(told['ticks'], told['cost'], told['cents'], told['outputs'][0])",
            "17 1950 20 {'output': 'spindle', 'ticks': 7, 'price': 150, 'cost': 1050}\n",
        ),
        (
            vec!["fillings", &example("bore.txt")],
            0,
            "print(told['lists'], len(told['stacks']), told['stacks'][0])",
            "65536 32 {'places': 1, 'fill': 65536, 'find_no_row': 0, 'drop': 0, 'find_it_full': 65536}\n",
        ),
        (
            vec!["why", &example("patched/roughing.image"), "--words", "0,0,4"],
            0,
            "print(told['row'])",
            "{'number': 3, 'asked_for': [{'condition': 'x2', 'value': 1}], 'ruled_out_others': [{'condition': 'x6', 'value': 0}, {'condition': 'x7', 'value': 0}], 'result': None}\n",
        ),
        (
            vec!["why", &example("bore.txt"), "--words", "0,0"],
            1,
            "print(told['row'], told['left']['name'], told['reached']['name'], told['problem']['refusal']['number'])",
            "None test lower 21\n",
        ),
        (
            vec!["test", &example("bore.txt"), &example("bore.scenario"), "no/such.scenario"],
            1,
            "print([(s['passed'], s['ticks']) for s in told['scenarios']], all(a['times'] for a in told['coverage']['arcs']))",
            "[(True, 12), (False, None)] True\n",
        ),
    ] {
        let told = record(&given, status, script).expect("as before");
        match wanted {
            "" => assert!(told.trim_end().ends_with(" 17"), "{told}"),
            _ => assert_eq!(told, wanted, "{given:?}"),
        }
    }
}

/// The formats that a command takes are in its help, and in the refusal of another.
#[test]
fn formats_are_told() {
    let chart = example("bore.txt");
    for (command, known) in [
        (vec!["trace", &chart], "vcd, csv or json"),
        (vec!["check", &chart], "lines, sarif, csv or json"),
        (vec!["places", &chart], "csv or json"),
        (vec!["bill", &chart, "--prices", &example("roughing.prices")], "csv or json"),
        (vec!["fillings", &chart], "csv or json"),
        (vec!["why", &chart], "csv or json"),
        (vec!["test", &chart, &example("bore.scenario")], "tap, junit, csv or json"),
    ] {
        let ran = run(&[&command[..], &["--format", "xml"]].concat());
        assert_eq!((ran.status, ran.printed.as_str()), (2, ""), "{command:?}");
        assert!(ran.said.starts_with(&format!("--format takes {known}, not xml\nusage: ")), "{}", ran.said);
        let help = run(&["help", command[0]]).printed;
        for name in known.split([',', ' ']).filter(|name| !matches!(*name, "" | "or")) {
            assert!(help.split_once("  --format").is_some_and(|(_, told)| told.contains(name)), "{help}");
        }
    }
    let ran = run(&["trace", &chart, "--format", "csv", "--save", "-"]);
    assert_eq!((ran.status, ran.printed.as_str()), (2, ""), "{}", ran.said);
}
