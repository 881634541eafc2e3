//! The completions for bash, from the table of the commands.

use crate::commands::{commands, Command};

const START: &str = r#"# Completions of boxform for bash; made by 'boxform completions'.
_boxform() {
    local word=${COMP_WORDS[COMP_CWORD]} before=${COMP_WORDS[COMP_CWORD - 1]} command=${COMP_WORDS[1]}
    local commands="@COMMANDS@" flags= words= files=yes
    COMPREPLY=()
    if [ "$COMP_CWORD" -eq 1 ]; then
        COMPREPLY=($(compgen -W "$commands --help --version" -- "$word"))
        return
    fi
    case $command in
"#;

const END: &str = r#"    esac
    if [ -n "$words" ]; then
        COMPREPLY=($(compgen -W "$words" -- "$word"))
    elif [ -n "$files" ] && [[ $word == -* ]]; then
        COMPREPLY=($(compgen -W "$flags --help" -- "$word"))
    elif [ -n "$files" ]; then
        compopt -o filenames 2>/dev/null
        COMPREPLY=($(compgen -f -- "$word"))
    fi
}
complete -F _boxform boxform
"#;

pub fn bash() -> String {
    let names: Vec<&str> = commands().map(|command| command.name).collect();
    let names = names.join(" ");
    let cases: String = commands().map(|command| case(command, &names)).collect();
    format!("{}{cases}{END}", START.replace("@COMMANDS@", &names))
}

/// What can follow a command: its flags, or the words of the flag before; a value that can be anything is not
/// completed.
fn case(command: &Command, names: &str) -> String {
    let mut text = format!("    {})\n", command.name);
    let flags: Vec<String> = command
        .arguments()
        .map(|argument| format!("--{}", argument.flag))
        .collect();
    text += &format!("        flags=\"{}\"\n", flags.join(" "));
    if command.operands == ["[COMMAND]"] {
        text += &format!("        words=\"{names}\"\n");
    }
    let valued: Vec<_> = command
        .arguments()
        .filter(|argument| !argument.switch())
        .collect();
    if !valued.is_empty() {
        text += "        case $before in\n";
        for argument in valued {
            let words = (argument.words)().join(" ");
            let then = if words.is_empty() {
                "files=".to_string()
            } else {
                format!("words=\"{words}\"")
            };
            text += &format!("        --{}) {then} ;;\n", argument.flag);
        }
        text += "        esac\n";
    }
    text + "        ;;\n"
}
