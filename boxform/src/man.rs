//! The man page, from the table of the commands.

use crate::commands::{Command, SECTIONS};
use crate::help::{ABOUT, NOTES, VERSION};

pub fn page() -> String {
    let mut page = format!(".TH BOXFORM 1 \"\" \"{VERSION}\" \"\"\n");
    page += ".SH NAME\nboxform \\- the form store of a timing box in a file\n";
    page += ".SH SYNOPSIS\n.B boxform\n.I COMMAND FILE\n[\n.BI \\-\\- \"ARGUMENT VALUE\"\n].\\|.\n";
    page += &format!(".SH DESCRIPTION\n{}\n", escaped(ABOUT));
    for section in &SECTIONS {
        page += &format!(".SH {}\n", section.title.to_uppercase());
        page.extend(section.commands.iter().map(entry));
    }
    for (title, note) in NOTES {
        page += &format!(".SH {}\n{}\n", title.to_uppercase(), escaped(note));
    }
    page
}

fn entry(command: &Command) -> String {
    let mut text = format!(
        ".SS {}\n.PP\n.B {}\n.PP\n{}\n",
        command.name,
        escaped(&command.usage()),
        escaped(command.about)
    );
    if !command.more.is_empty() {
        text += &format!("{}\n", escaped(command.more));
    }
    for argument in command.arguments() {
        text += &format!(
            ".TP\n.B {}\n{}\n",
            escaped(&argument.usage()),
            escaped(argument.about)
        );
    }
    text
}

/// Text that roff takes as it is.
fn escaped(text: &str) -> String {
    let plain = text.replace('\\', "\\e").replace('-', "\\-");
    match plain.starts_with(['.', '\'']) {
        true => format!("\\&{plain}"),
        false => plain,
    }
}
