//! What the shell offers while a call is typed, made of the usage lines.

use crate::command::Command;
use crate::usage::{Place, Usage};

/// Of a call that is typed: the word at the cursor, and the one before it. An option and its value may have a = between them, which bash
/// takes for a word.
const START: &str = r#"# Completion of fairleadow for bash, made by `fairleadow completion bash`.
_fairleadow() {
    local at=$COMP_CWORD word=${COMP_WORDS[COMP_CWORD]} before options= words= files=
    COMPREPLY=()
    if [ "$word" = = ]; then
        word=
    elif [ "${COMP_WORDS[at - 1]}" = = ]; then
        at=$((at - 1))
    fi
    before=${COMP_WORDS[at - 1]}
"#;

/// What is offered: options after a hyphen, else words and files; after -- none but files.
const END: &str = r#"    local earlier ended=
    for earlier in "${COMP_WORDS[@]:1:COMP_CWORD - 1}"; do
        [ "$earlier" != -- ] || ended=yes
    done
    case $ended:$word in
    yes:*) words= ;;
    :-*) words=$options files= ;;
    *) [ -n "$words$files" ] || words=$options ;;
    esac
    if [ -n "$files" ]; then
        compopt -o filenames 2>/dev/null
        mapfile -t COMPREPLY < <(compgen -W "$words" -- "$word"; compgen -f -- "$word")
    else
        mapfile -t COMPREPLY < <(compgen -W "$words" -- "$word")
    fi
}
complete -F _fairleadow fairleadow
"#;

/// Completion for bash: a case for each command, by what is asked for where the cursor is.
pub fn bash(commands: &[Command]) -> String {
    let names: Vec<&str> = commands.iter().map(|command| command.name).collect();
    let names = names.join(" ");
    let cases: String = commands.iter().map(case).collect();
    format!(
        "{START}    if [ \"$COMP_CWORD\" = 1 ]; then\n        words='{names} help' options='--help --version'\n    else\n        \
         case ${{COMP_WORDS[1]}} in\n        help) words='{names}' options=--man ;;\n{cases}        esac\n    fi\n{END}"
    )
}

/// What is offered after one command's name.
fn case(command: &Command) -> String {
    let usage = Usage::of(command.arguments);
    let options: Vec<&str> = usage.options.iter().map(|option| option.name).chain(["--help"]).collect();
    let values: String = usage
        .options
        .iter()
        .filter_map(|option| {
            let value = option.value?;
            Some(format!("            {}) {} ;;\n", option.name, offered(&[value], "")))
        })
        .collect();
    let others = offered(&usage.operands, &options.join(" "));
    format!(
        "        {})\n            case $before in\n{values}            *) {others} ;;\n            esac\n            ;;\n",
        command.name
    )
}

/// The settings of what is offered in these places, beside options. Where nothing can be offered nothing is.
fn offered(places: &[Place], options: &str) -> String {
    let words: Vec<&str> = places.iter().flat_map(|place| place.words()).collect();
    let files = if places.iter().any(|place| place.is_file()) { "yes" } else { "" };
    format!("words='{}' files={files} options='{options}'", words.join(" "))
}
