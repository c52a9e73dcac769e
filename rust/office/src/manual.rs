//! The man page, made of the same words as the help.

use crate::command::Command;

/// fairleadow(1): what all commands have in common, then each with the help that it prints.
pub fn page(commands: &[Command], common: &str, version: &str) -> String {
    let mut page = format!(
        ".TH FAIRLEADOW 1 \"\" \"fairleadow {}\" \"User commands\"\n\
         .SH NAME\nfairleadow \\- charts composed, checked, traced, drawn, priced and asked about\n\
         .SH SYNOPSIS\n.B fairleadow\n.I COMMAND ARGUMENTS\n.SH DESCRIPTION\n",
        shown(version)
    );
    // a section begins a paragraph itself
    page.push_str(paragraphs(common).trim_start_matches(".PP\n"));
    page.push_str(".SH COMMANDS\n");
    commands.iter().for_each(|command| page.push_str(&of_command(command)));
    page
}

fn of_command(command: &Command) -> String {
    let mut text = format!(".SS {}\n.B fairleadow {0}\n", shown(command.name));
    text.push_str(&line(command.arguments));
    text.push_str(&format!(".PP\n{}", line(command.help)));
    command.details.iter().for_each(|part| text.push_str(&paragraphs(part)));
    text
}

/// Blocks with empty lines between them: those that are indented are lists, the others are filled.
fn paragraphs(text: &str) -> String {
    text.split("\n\n")
        .map(|block| block.trim_matches('\n'))
        .filter(|block| !block.is_empty())
        .map(block)
        .collect()
}

fn block(block: &str) -> String {
    let lines: Vec<&str> = block.lines().collect();
    match lines.first().map(|first| indent(first)) {
        Some(0) => [".PP\n".to_string()].into_iter().chain(lines.into_iter().map(line)).collect(),
        _ => list(&lines),
    }
}

fn indent(line: &str) -> usize {
    line.len() - line.trim_start().len()
}

/// A list of items, each at the first line's indent: what it is called, and after two spaces or on the next lines what is said of it.
/// Lines that stand deeper than what is said are a list of its own.
fn list(lines: &[&str]) -> String {
    let depth = lines.first().map_or(0, |line| indent(line));
    lines.chunk_by(|_, next| indent(next) > depth).map(item).collect()
}

fn item(lines: &[&str]) -> String {
    let Some((first, rest)) = lines.split_first() else { return String::new() };
    let (term, said) = first.trim_start().split_once("  ").unwrap_or((first.trim_start(), ""));
    let said = said.trim_start();
    let column = match said {
        "" => rest.first().map_or(0, |line| indent(line)),
        said => first.len() - said.len(),
    };
    let mut text = format!(".TP\n\\fB{}\\fR\n", shown(term));
    text.extend(Some(line(said)).filter(|_| !said.is_empty()));
    for part in rest.chunk_by(|one, next| (indent(one) > column) == (indent(next) > column)) {
        if indent(part[0]) > column {
            text.push_str(&format!(".RS\n{}.RE\n", list(part)));
        } else {
            // after a list the item goes on where it began
            let again = if text.ends_with(".RE\n") { ".IP\n" } else { "" };
            text.push_str(again);
            text.extend(part.iter().map(|words| line(words)));
        }
    }
    text
}

/// A line of text, which begins with no sign that roff takes for its own.
fn line(words: &str) -> String {
    format!("{}\n", shown(words.trim()))
}

/// Text as roff prints it.
fn shown(words: &str) -> String {
    let words = words.replace('\\', "\\e").replace('-', "\\-").replace('\'', "\\(aq").replace('`', "\\(ga");
    if words.starts_with('.') {
        format!("\\&{words}")
    } else {
        words
    }
}

#[cfg(test)]
mod tests {
    use super::*;

    #[test]
    fn indented_lines_are_lists_and_deeper_ones_lists_within() {
        let text = "\nWords.\nMore.\n\n  --a X  one of\n           b    this\n           c    that\n         else none\n  -d\n         .e";
        let wanted = ".PP\nWords.\nMore.\n.TP\n\\fB\\-\\-a X\\fR\none of\n.RS\n.TP\n\\fBb\\fR\nthis\n.TP\n\\fBc\\fR\nthat\n.RE\n.IP\n\
                      else none\n.TP\n\\fB\\-d\\fR\n\\&.e\n";
        assert_eq!(paragraphs(text), wanted);
    }
}
