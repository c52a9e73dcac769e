//! A price list as a person writes it: a line for each output, its name and its price in hundredths of a cent a tick. What
//! has no line costs nothing.

use fairleadow::{Prices, OPERATIONS};

use crate::names::Names;
use crate::notation::{output, unknown, Word};
use crate::problem::{visible, Problem};
use crate::source::text_of;

/// What a line looks like.
const FORM: &str = "a line for each output, its name and its price, such as 'y0 150'; # before a comment";

/// The prices of a file, by the names of a chart, or what is wrong with it.
pub fn prices(bytes: &[u8], names: &Names) -> Result<Prices, Problem> {
    listed(text_of(bytes)?, names).map_err(|problem| problem.excerpt(bytes))
}

fn listed(text: &str, names: &Names) -> Result<Prices, Problem> {
    let (mut prices, mut lines) = ([0; OPERATIONS], [None; OPERATIONS]);
    for (at, line) in text.trim_start_matches('\u{FEFF}').lines().enumerate() {
        let Some((operation, price)) = entry(line, at + 1, names)? else { continue };
        let operation = usize::from(operation);
        if let Some(before) = lines[operation].replace(at + 1) {
            let name = names.operation(operation as u8);
            return Err(Problem::at(
                at + 1,
                name_of(line).column,
                format!("'{name}' has a price already (line {before})"),
            ));
        }
        prices[operation] = price;
    }
    if lines.iter().all(Option::is_none) {
        return Err(Problem::new("there is no price in it").advice(FORM));
    }
    Ok(prices)
}

/// What stands before a comment.
fn statement(line: &str) -> &str {
    line.split('#').next().unwrap_or("")
}

/// The first word of a line.
fn name_of(line: &str) -> Word {
    let rest = statement(line).trim_start();
    let column = statement(line).chars().count() - rest.chars().count() + 1;
    Word { text: rest.split_whitespace().next().unwrap_or("").to_string(), column }
}

/// All that follows the first word.
fn price_of(line: &str) -> Word {
    let rest = statement(line).trim();
    let price = rest.split_once(char::is_whitespace).map_or("", |(_, price)| price.trim_start());
    let column = statement(line).trim_end().chars().count() - price.chars().count() + 1;
    Word { text: price.to_string(), column }
}

/// The output and the price of a line, if one stands on it.
fn entry(line: &str, number: usize, names: &Names) -> Result<Option<(u8, u16)>, Problem> {
    let (name, price) = (name_of(line), price_of(line));
    if name.text.is_empty() {
        return Ok(None);
    }
    let Some(operation) = output(names, &name.text) else {
        let known = names.operations.values().map(String::as_str);
        return Err(unknown(number, &name, "output", known).advice(advice(names)));
    };
    if price.text.is_empty() {
        let what = format!("'{}' has no price", name.shown());
        return Err(Problem::at(number, price.column, what).advice(FORM));
    }
    if !price.text.bytes().all(|digit| digit.is_ascii_digit()) {
        let what = format!("'{}' is no price", visible(&price.text));
        let advice = "a whole number of hundredths of a cent a tick, 0 to 65535: 150 is one cent and a half";
        return Err(Problem::at(number, price.column, what).advice(advice));
    }
    let most = |_| {
        let what = format!("'{}' is more than 65535, the highest price", visible(&price.text));
        Problem::at(number, price.column, what)
    };
    price.text.parse().map(|price| Some((operation, price))).map_err(most)
}

/// Which names there are.
fn advice(names: &Names) -> &'static str {
    match names.operations.is_empty() {
        true => "this chart or image has no names of its own: outputs are y0 to y31",
        false => "the names of the chart's outputs; those without a name are y0 to y31",
    }
}

#[cfg(test)]
mod tests {
    use super::*;

    fn names() -> Names {
        let operations = [(0, "spindle"), (7, "größe")].map(|(number, name)| (number, name.to_string()));
        Names { operations: operations.into(), ..Names::default() }
    }

    #[test]
    fn a_line_has_a_name_and_a_price() {
        let text = "# the new rates\n\nspindle 150 # a cent and a half\n  größe\t65535\r\ny31   0\ny1 7\n";
        let mut wanted = [0; 32];
        (wanted[0], wanted[7], wanted[1]) = (150, 65_535, 7);
        assert_eq!(prices(text.as_bytes(), &names()), Ok(wanted));
        assert_eq!(prices(b"\xEF\xBB\xBFy0 150\ny7 65535\ny1 7", &Names::default()), Ok(wanted));
    }

    #[test]
    fn a_fault_is_told_with_its_line_and_column() {
        for (text, told) in [
            (
                "spindle 150\nspindel 3\n",
                "line 2, column 1: no output is named 'spindel'; 'spindle' is near to it",
            ),
            ("y32 3\n", "line 1, column 1: no output is named 'y32'"),
            ("3 150\n", "line 1, column 1: no output is named '3'"),
            ("spindle\n", "line 1, column 8: 'spindle' has no price"),
            ("# so\n  spindle # 5\n", "line 2, column 10: 'spindle' has no price"),
            ("größe 1.50\n", "line 1, column 7: '1.50' is no price"),
            ("spindle -1\n", "line 1, column 9: '-1' is no price"),
            ("spindle  150 cents\n", "line 1, column 10: '150 cents' is no price"),
            ("spindle 65536\n", "line 1, column 9: '65536' is more than 65535, the highest price"),
            ("spindle 99999999999999999999\n", "line 1, column 9: '99999999999999999999' is more than 65535"),
            ("spindle 1\n\n y0 2\n", "line 3, column 2: 'spindle' has a price already (line 1)"),
            ("# nothing\n", "there is no price in it"),
            ("", "there is no price in it"),
        ] {
            let problem = prices(text.as_bytes(), &names()).expect_err("a fault");
            assert!(problem.words.starts_with(told), "{text}: {}", problem.words);
        }
        let problem = prices(b"y0 1\n\xFF", &names()).expect_err("a fault");
        assert_eq!(problem.words, "line 2, column 1: byte FF is no character in UTF-8");
    }
}
