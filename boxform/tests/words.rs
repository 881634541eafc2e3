//! Help, man page and completions, which are made from one table.

mod common;

use common::{Desk, BOXFORM};
use std::fs;

/// The names of the commands, from the help: they stand before what holds for all changes.
fn names(desk: &Desk) -> Vec<String> {
    let overview = desk.done("--help");
    let (commands, _) = overview.split_once("\nChanges\n").unwrap();
    let lines = commands.lines().filter_map(|line| line.strip_prefix("  "));
    let names = lines.filter_map(|line| line.split(' ').next());
    names
        .filter(|name| !name.is_empty())
        .map(str::to_string)
        .collect()
}

#[test]
fn help_for_each_command() {
    let desk = Desk::new();
    let names = names(&desk);
    assert_eq!(names.len(), 29, "{names:?}");
    for name in &names {
        let help = desk.done(&format!("{name} --help"));
        assert!(help.starts_with(&format!("boxform {name}")), "{help}");
        assert_eq!(help, desk.done(&format!("help {name}")));
        let flags = help.lines().filter(|line| line.starts_with("  --")).count();
        let usage = help.lines().next().unwrap();
        assert_eq!(flags, usage.matches("--").count(), "{help}");
    }
    assert_eq!(desk.done("help"), desk.done("-h"));
    for line in desk.done("help").lines().skip(1) {
        assert!(line.len() <= 100, "{line}");
    }
}

#[test]
fn version() {
    let desk = Desk::new();
    let version = format!("boxform {}\n", env!("CARGO_PKG_VERSION"));
    assert_eq!(desk.done("--version"), version);
    assert_eq!(desk.done("-V"), version);
}

/// After -- a word is no flag.
#[test]
fn words_after_two_dashes() {
    let desk = Desk::new();
    desk.done("new -- --help");
    assert!(desk.path("--help").exists());
    assert_eq!(
        desk.done("check -- --help"),
        "passes; it is as boxform left it\n"
    );
    desk.done("create-definition --name a --kind empty -- --help");
}

/// The files that stand in the repository are what the tool makes.
#[test]
fn man_page_and_completions_are_as_made() {
    let desk = Desk::new();
    for (command, file) in [("man", "boxform.1"), ("completions", "boxform.bash")] {
        let stands = fs::read_to_string(format!("{}/{file}", env!("CARGO_MANIFEST_DIR")))
            .unwrap_or_default();
        assert!(
            stands == desk.done(command),
            "'boxform {command} > {file}' makes it anew"
        );
    }
}

#[test]
fn the_man_page_tells_of_each_command() {
    let desk = Desk::new();
    let page = desk.done("man");
    for name in names(&desk) {
        assert!(page.contains(&format!("\n.SS {name}\n")), "{name}");
    }
    let told =
        desk.shell("command -v man >/dev/null || exit 3; $boxform man | man --warnings -l - | cat");
    match told.status {
        Some(3) => println!("not shown by man: there is none"),
        _ => {
            assert_eq!((told.status, told.err.as_str()), (Some(0), ""));
            assert!(
                told.out
                    .contains("boxform set-text FILE --element SERIAL --text TEXT"),
                "{}",
                told.out
            );
        }
    }
}

/// What bash offers after these words; the last is the one that is typed.
fn offered(desk: &Desk, words: &str) -> Vec<String> {
    let script = format!(
        "source <('{BOXFORM}' completions); COMP_WORDS=({words}); COMP_CWORD=$((${{#COMP_WORDS[@]}} - 1)); \
         _boxform; printf '%s\\n' \"${{COMPREPLY[@]}}\""
    );
    let run = desk.command("bash", &["-c", &script]).output().unwrap();
    assert_eq!(String::from_utf8(run.stderr).unwrap(), "");
    let out = String::from_utf8(run.stdout).unwrap();
    out.lines()
        .filter(|line| !line.is_empty())
        .map(str::to_string)
        .collect()
}

#[test]
fn bash_completes() {
    let desk = Desk::new();
    fs::write(desk.path("club.form"), b"").unwrap();
    for (words, wanted) in [
        (
            "boxform destroy-a",
            &["destroy-attribute", "destroy-attribute-row"][..],
        ),
        ("boxform set-text cl", &["club.form"]),
        ("boxform set-text club.form --e", &["--element"]),
        (
            "boxform create-definition club.form --kind ''",
            &["empty", "pcdata", "complex"],
        ),
        ("boxform insert-element club.form --quantifier p", &["plus"]),
        ("boxform create-definition club.form --name cl", &[]),
        ("boxform help und", &["undo"]),
        ("boxform set-text club.form --d", &["--dry-run"]),
        ("boxform --v", &["--version"]),
    ] {
        assert_eq!(offered(&desk, words), wanted, "{words}");
    }
    assert_eq!(offered(&desk, "boxform ''").len(), names(&desk).len() + 2);
}
