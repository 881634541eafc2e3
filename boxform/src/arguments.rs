//! The named arguments that commands take.

use formstore::{AttributeSort, Code, GroupSort, Kind, Quantifier};

pub struct Argument {
    pub flag: &'static str,
    /// What stands for its value in the help; a switch has none.
    pub value: &'static str,
    pub about: &'static str,
    /// One that is not needed is empty where it is not given.
    pub needed: bool,
    /// The words that it can be, where they are few.
    pub words: fn() -> Vec<&'static str>,
}

impl Argument {
    pub fn switch(&self) -> bool {
        self.value.is_empty()
    }

    /// As it stands in a usage: `--name NAME`.
    pub fn usage(&self) -> String {
        format!("--{} {}", self.flag, self.value)
            .trim_end()
            .to_string()
    }
}

const fn needed(flag: &'static str, value: &'static str, about: &'static str) -> Argument {
    Argument {
        flag,
        value,
        about,
        needed: true,
        words: Vec::new,
    }
}

const fn free(flag: &'static str, value: &'static str, about: &'static str) -> Argument {
    Argument {
        flag,
        value,
        about,
        needed: false,
        words: Vec::new,
    }
}

const fn switch(flag: &'static str, about: &'static str) -> Argument {
    free(flag, "", about)
}

const fn code<C: Code>(flag: &'static str, value: &'static str, about: &'static str) -> Argument {
    Argument {
        flag,
        value,
        about,
        needed: true,
        words: words::<C>,
    }
}

fn words<C: Code>() -> Vec<&'static str> {
    C::ALL.iter().map(|case| case.word()).collect()
}

pub const NAME: Argument = needed(
    "name",
    "NAME",
    "the name: 1 to 16 letters, digits, _, - and ., first a letter or _; it may not begin with xml, XML or the like",
);
pub const KIND: Argument = code::<Kind>(
    "kind",
    "KIND",
    "empty, pcdata (a text) or complex (a model of elements)",
);
pub const DEFINITION: Argument = needed(
    "definition",
    "DEFINITION",
    "the definition, by name or index",
);
pub const OWNER: Argument = needed(
    "owner",
    "DEFINITION",
    "the definition that it belongs to, by name or index",
);
pub const MODEL: Argument = free(
    "owner",
    "DEFINITION",
    "the definition whose model changes, by name or index; it can stand in the place instead",
);
pub const GAP: Argument = needed(
    "place",
    "PLACE",
    "insert after this member of the model: its name, or its number; 0 is before the first, 2-1 after the first member \
     of the group that is \
     member 2, OWNER/PLACE names the owner too",
);
pub const PLACE: Argument = needed(
    "place",
    "PLACE",
    "the member of the model: its name, or its number from 1; 2-1 is the first member of the group that is member 2, \
     OWNER/PLACE names \
     the owner too, NAME/.. is the group around NAME",
);
pub const QUANTIFIER: Argument = code::<Quantifier>(
    "quantifier",
    "QUANTIFIER",
    "none (once), qmark (?), star (*) or plus (+)",
);
pub const DEFAULT: Argument = free(
    "text",
    "TEXT",
    "the text of elements that this makes in the lists; needed where one must come",
);
pub const COUNT: Argument = needed("count", "COUNT", "how many members go into the group");
pub const GROUP_SORT: Argument = code::<GroupSort>(
    "sort",
    "SORT",
    "list (all in order) or choice (one of them)",
);
pub const ATTRIBUTE_SORT: Argument =
    code::<AttributeSort>("sort", "SORT", "implied (may be absent), required or fixed");
pub const FILL: Argument = free(
    "value",
    "VALUE",
    "required: the value for the lists that stand; fixed: the value; implied: none",
);
pub const ATTRIBUTE: Argument = needed(
    "attribute",
    "ATTRIBUTE",
    "the attribute, as NAME where one alone has it, as OWNER.NAME or by index",
);
pub const FILLING: Argument = free("text", "TEXT", "the text of all that is made");
pub const PARENT: Argument = needed("parent", "SERIAL", "the element that it comes into");
pub const CHILD: Argument = needed(
    "child",
    "NUMBER",
    "how many elements stand before it there, or end",
);
pub const ELEMENT: Argument = needed("element", "SERIAL", "the element");
pub const VALUE: Argument = needed("value", "VALUE", "the new value");
pub const TEXT: Argument = needed("text", "TEXT", "the new text");

pub const YES: Argument = switch("yes", "do it without asking, also where rows go");
pub const DRY_RUN: Argument = switch("dry-run", "say what would be done, and write nothing");

pub const DOCUMENT: Argument = free("document", "NUMBER", "this document alone, from 1");
pub const DOCTYPE: Argument = switch(
    "doctype",
    "the document whole, with the DTD inside, as 'xmllint --valid -' reads it",
);
pub const ONE_ELEMENT: Argument =
    free("element", "SERIAL", "this element alone, with all below it");
pub const JSON: Argument = switch("json", "as JSON");

pub const COLUMNS: Argument = free(
    "columns",
    "NAMES",
    "what the fields of a line are, with commas between: names of elements, or @NAME for an attribute; without it the \
     first line names them",
);
pub const LOADED: Argument = free(
    "definition",
    "DEFINITION",
    "the definition of the children; not needed where one alone has these columns",
);
pub const LOAD_CHILD: Argument = free(
    "child",
    "NUMBER",
    "how many elements stand before the first of them; the end, where it is not given",
);
pub const SEPARATOR: Argument = free(
    "separator",
    "CHARACTER",
    "what stands between fields; a comma, where it is not given",
);
