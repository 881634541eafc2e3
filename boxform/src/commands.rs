//! The table of the commands: what each is called, takes and does. Help, man page and completions are made from it.

use crate::arguments::*;
use crate::failure::Failure;
use crate::given::Given;
use formstore::{AttributeSort, GroupSort, Kind, Quantifier, Store};

pub struct Command {
    pub name: &'static str,
    /// One sentence.
    pub about: &'static str,
    /// What else a person should know.
    pub more: &'static str,
    /// What stands without a flag; one in brackets need not.
    pub operands: &'static [&'static str],
    pub own: &'static [Argument],
    pub action: Action,
}

#[derive(Clone, Copy)]
pub enum Action {
    New,
    Read,
    Check,
    Sum,
    Undo,
    Print,
    Show,
    Diff,
    Change(Change),
    Run,
    Load,
    Help,
    Man,
    Completions,
}

pub type Change = fn(&mut Store, &Given) -> Result<(), Failure>;

const FILE: &[&str] = &["FILE"];

impl Command {
    /// The arguments of the command, with those that all changes have.
    pub fn arguments(&self) -> impl Iterator<Item = &'static Argument> {
        const SWITCHES: &[Argument] = &[YES, DRY_RUN];
        let switches = match self.action {
            Action::Change(_) | Action::Run => SWITCHES,
            _ => &[],
        };
        self.own.iter().chain(switches)
    }
}

const fn plain(
    name: &'static str,
    action: Action,
    operands: &'static [&'static str],
    own: &'static [Argument],
    about: &'static str,
    more: &'static str,
) -> Command {
    Command {
        name,
        about,
        more,
        operands,
        own,
        action,
    }
}

const fn change(
    name: &'static str,
    own: &'static [Argument],
    change: Change,
    about: &'static str,
    more: &'static str,
) -> Command {
    plain(name, Action::Change(change), FILE, own, about, more)
}

pub struct Section {
    pub title: &'static str,
    pub commands: &'static [Command],
}

pub const SECTIONS: [Section; 6] = [
    Section {
        title: "The file",
        commands: FILES,
    },
    Section {
        title: "Reading",
        commands: READING,
    },
    Section {
        title: "Changes of the form",
        commands: FORM,
    },
    Section {
        title: "Changes of the lists",
        commands: LISTS,
    },
    Section {
        title: "Many changes at once",
        commands: MANY,
    },
    Section {
        title: "Help",
        commands: HELP,
    },
];

/// All commands, in the order of the help.
pub fn commands() -> impl Iterator<Item = &'static Command> {
    const { &SECTIONS }
        .iter()
        .flat_map(|section| section.commands)
}

const FILES: &[Command] = &[
    plain("new", Action::New, FILE, &[], "Makes FILE, with nothing in it; a file that is there stays.", ""),
    plain(
        "read",
        Action::Read,
        &["TEXT", "FILE"],
        &[],
        "Makes FILE, with the form and the lists of the printed text in TEXT; a file that is there stays.",
        "For a club that holds only what its old box printed. TEXT is what 'print' prints without arguments, to the \
         byte; FILE then prints it again. Rows have new serials, from 1 on in the order of the text, and a required \
         attribute has the value - for elements made later. A text that no store prints is refused, with the line that \
         is to blame where it is one.",
    ),
    plain(
        "check",
        Action::Check,
        FILE,
        &[],
        "Says whether the store in FILE passes the check, and whether it is as boxform left it.",
        "A store that does not pass is told with the reason: empty, cut short, no form store, or which part of the \
         form or which element is damaged.",
    ),
    plain(
        "sum",
        Action::Sum,
        FILE,
        &[],
        "Takes FILE as it is: writes its sum to FILE.sum anew.",
        "For a file that another program wrote. It must pass the check.",
    ),
    plain(
        "undo",
        Action::Undo,
        FILE,
        &[DRY_RUN],
        "Brings back the store before the last change, FILE~.",
        "What was in FILE is then in FILE~, so that a second undo takes back the first. Serials given since may be \
         given again. FILE itself may be damaged.",
    ),
];

const READING: &[Command] = &[
    plain(
        "print",
        Action::Print,
        FILE,
        &[DOCUMENT, DOCTYPE],
        "Prints the DTD, then a line for each document.",
        "With --document, the line of that document alone; with --doctype, the document whole: 'boxform print FILE \
         --document 1 --doctype | xmllint --valid -'. \
         An attribute that is #FIXED and absent in a document is supplied by every reader of the DTD, so it need not \
         be there to have its value.",
    ),
    plain(
        "show",
        Action::Show,
        FILE,
        &[DOCUMENT, ONE_ELEMENT, JSON],
        "Shows definitions with their places, attributes, and rows with serials and child numbers.",
        "All numbers that the changes want are there: the index of a definition or attribute at the left, the place of \
         each member, the serial of each row, and the \
         number of an element among its parent's children. Quotes and \\ in a value have a \\ before them.",
    ),
    plain(
        "diff",
        Action::Diff,
        &["A", "B"],
        &[],
        "Says what differs from store A to store B: the form in words, the rows by serial.",
        "A row that only A has is marked -, one that only B has +, one with another value !. Exit status: 0 nothing \
         differs, 1 something does, 2 wrong use or file \
         error; a store that does not pass is refused with 1 as well.",
    ),
];

const FORM: &[Command] = &[
    change(
        "create-definition",
        &[NAME, KIND],
        |store, given| {
            let kind = given.code::<Kind>("kind")?;
            Ok(store.create_definition(given.bytes("name"), kind)?)
        },
        "Change 1: appends a definition.",
        "",
    ),
    change(
        "destroy-definition",
        &[DEFINITION],
        |store, given| {
            let definition = given.definition("definition", store)?;
            Ok(store.destroy_definition(definition)?)
        },
        "Change 2: destroys a definition, with its model and attributes.",
        "It must stand in no model and at the root of no document.",
    ),
    change(
        "insert-element",
        &[MODEL, GAP, DEFINITION, QUANTIFIER, DEFAULT],
        |store, given| {
            let (owner, place) = given.place(store)?;
            let definition = given.definition("definition", store)?;
            let quantifier = given.code::<Quantifier>("quantifier")?;
            Ok(store.insert_element(owner, &place, definition, quantifier, given.bytes("text"))?)
        },
        "Change 3: inserts an element into a model; where it must come, the lists get one.",
        "",
    ),
    change(
        "remove-element",
        &[MODEL, PLACE],
        |store, given| {
            let (owner, place) = given.place(store)?;
            Ok(store.remove_element(owner, &place)?)
        },
        "Change 4: removes an element from a model, and from the lists.",
        "",
    ),
    change(
        "change-quantifier",
        &[MODEL, PLACE, QUANTIFIER, DEFAULT],
        |store, given| {
            let (owner, place) = given.place(store)?;
            let quantifier = given.code::<Quantifier>("quantifier")?;
            Ok(store.change_quantifier(owner, &place, quantifier, given.bytes("text"))?)
        },
        "Change 5: changes the quantifier of an element; the lists follow.",
        "Where it may come no longer many times, the first of each stays and the others go; where it must come now, it \
         is made where none stands.",
    ),
    change(
        "convert-to-group",
        &[MODEL, PLACE, COUNT, GROUP_SORT],
        |store, given| {
            let (owner, place) = given.place(store)?;
            let sort = given.code::<GroupSort>("sort")?;
            Ok(store.convert_to_group(owner, &place, given.number("count")?, sort)?)
        },
        "Change 6: converts members of a model, from a place on, into a group.",
        "",
    ),
    change(
        "flatten-group",
        &[MODEL, PLACE],
        |store, given| {
            let (owner, place) = given.place(store)?;
            Ok(store.flatten_group(owner, &place)?)
        },
        "Change 7: flattens a group into the list that it stands in.",
        "",
    ),
    change(
        "change-group-quantifier",
        &[MODEL, PLACE, QUANTIFIER, DEFAULT],
        |store, given| {
            let (owner, place) = given.place(store)?;
            let quantifier = given.code::<Quantifier>("quantifier")?;
            Ok(store.change_group_quantifier(owner, &place, quantifier, given.bytes("text"))?)
        },
        "Change 8: changes the quantifier of a group; the lists follow.",
        "",
    ),
    change(
        "add-attribute",
        &[OWNER, NAME, ATTRIBUTE_SORT, FILL],
        |store, given| {
            let owner = given.definition("owner", store)?;
            let sort = given.code::<AttributeSort>("sort")?;
            if sort == AttributeSort::Fixed && !given.has("value") {
                let text = "--sort fixed: give the value with --value; --value '' is the empty one";
                return Err(Failure::Use(text.to_string()));
            }
            Ok(store.add_attribute(owner, given.bytes("name"), sort, given.bytes("value"))?)
        },
        "Change 9: adds an attribute; a required one comes into the lists.",
        "",
    ),
    change(
        "destroy-attribute",
        &[ATTRIBUTE],
        |store, given| {
            let attribute = given.attribute(store)?;
            Ok(store.destroy_attribute(attribute)?)
        },
        "Change 10: destroys an attribute, in the lists too.",
        "",
    ),
];

const LISTS: &[Command] = &[
    change(
        "add-document",
        &[DEFINITION, FILLING],
        |store, given| {
            let definition = given.definition("definition", store)?;
            Ok(store.add_document(definition, given.bytes("text"))?)
        },
        "Change 11: adds a last document.",
        "",
    ),
    change(
        "add-element",
        &[PARENT, CHILD, DEFINITION, FILLING],
        |store, given| {
            let definition = given.definition("definition", store)?;
            let parent = given.number("parent")?;
            let child = given.child(store)?;
            Ok(store.add_element(parent, child, definition, given.bytes("text"))?)
        },
        "Change 12: adds an element to a list.",
        "",
    ),
    change(
        "destroy-element",
        &[ELEMENT],
        |store, given| Ok(store.destroy_element(given.number("element")?)?),
        "Change 13: destroys an element with all below it, or a whole document.",
        "",
    ),
    change(
        "set-attribute",
        &[ELEMENT, ATTRIBUTE, VALUE],
        |store, given| {
            let attribute = given.attribute(store)?;
            Ok(store.set_attribute(given.number("element")?, attribute, given.bytes("value"))?)
        },
        "Change 14: sets an attribute of an element.",
        "",
    ),
    change(
        "destroy-attribute-row",
        &[ELEMENT, ATTRIBUTE],
        |store, given| {
            let attribute = given.attribute(store)?;
            Ok(store.destroy_attribute_row(given.number("element")?, attribute)?)
        },
        "Change 15: takes an attribute from one element.",
        "",
    ),
    change(
        "set-text",
        &[ELEMENT, TEXT],
        |store, given| Ok(store.set_text(given.number("element")?, given.bytes("text"))?),
        "Change 16: sets the text of an element.",
        "",
    ),
];

const MANY: &[Command] = &[
    plain(
        "run",
        Action::Run,
        FILE,
        &[],
        "Makes the changes of a script that it reads from its input, all or none.",
        "A line is a change in the words of its command, without FILE: set-text --element 5 --text '19:04'. Blanks \
         part words; '..' and \"..\" hold them together, a \\ \
         takes the next character as it is (not within '..'). Empty lines and lines that begin with # say nothing. The \
         first line that fails is told with its number, \
         and then the file is as it was. Rows that go from before to after are asked for once, with --yes.",
    ),
    plain(
        "load",
        Action::Load,
        FILE,
        &[PARENT, COLUMNS, LOADED, LOAD_CHILD, SEPARATOR, DRY_RUN],
        "Adds a child for each line of a table that it reads from its input (CSV), all or none.",
        "A field that holds the separator or quotes stands between quotes, with its quotes doubled. An empty field \
         gives an element that must be there the empty text, \
         and leaves one out that need not be. Lines with nothing in them are passed over. The first line that fails is \
         told with its number, and then the file is as \
         it was.",
    ),
];

const HELP: &[Command] = &[
    plain(
        "help",
        Action::Help,
        &["[COMMAND]"],
        &[],
        "Tells of all commands, or of one.",
        "",
    ),
    plain(
        "man",
        Action::Man,
        &[],
        &[],
        "Prints the man page, for 'man -l -'.",
        "",
    ),
    plain(
        "completions",
        Action::Completions,
        &[],
        &[],
        "Prints the completions for bash: source <(boxform completions).",
        "",
    ),
];
