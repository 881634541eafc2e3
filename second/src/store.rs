//! The store as trees: the form (definitions with their models, attributes)
//! and the documents.

pub const VERSION: u32 = 1;
pub const MAX_DEFINITIONS: usize = 64;
pub const MAX_PARTICLES: usize = 256;
pub const MAX_ATTRIBUTES: usize = 64;
pub const MAX_ROWS: usize = 4096;
/// Groups around a particle, the top list not counted.
pub const MAX_MODEL_DEPTH: usize = 4;
pub const MAX_NAME: usize = 16;
pub const MAX_VALUE: usize = 32;

#[derive(Clone, Copy, Debug, PartialEq, Eq)]
pub enum Kind {
    Empty,
    Pcdata,
    Complex,
}

#[derive(Clone, Copy, Debug, PartialEq, Eq)]
pub enum Quantifier {
    None,
    Qmark,
    Star,
    Plus,
}

#[derive(Clone, Copy, Debug, PartialEq, Eq)]
pub enum GroupKind {
    List,
    Choice,
}

#[derive(Clone, Copy, Debug, PartialEq, Eq)]
pub enum AttributeSort {
    Implied,
    Required,
    Fixed,
}

/// The numbers by which the store and the calls name the cases of an enum.
pub trait Code: Copy {
    fn from_code(code: u32) -> Option<Self>;
    fn code(self) -> u8;
}

impl Code for Kind {
    fn from_code(code: u32) -> Option<Kind> {
        [Kind::Empty, Kind::Pcdata, Kind::Complex]
            .get(code as usize)
            .copied()
    }
    fn code(self) -> u8 {
        self as u8
    }
}

impl Quantifier {
    pub const ALL: [Quantifier; 4] = [
        Quantifier::None,
        Quantifier::Qmark,
        Quantifier::Star,
        Quantifier::Plus,
    ];
}

impl Code for Quantifier {
    fn from_code(code: u32) -> Option<Quantifier> {
        Quantifier::ALL.get(code as usize).copied()
    }
    fn code(self) -> u8 {
        self as u8
    }
}

impl Code for GroupKind {
    /// 0 is an element's sort, so a group's sorts start at 1.
    fn from_code(code: u32) -> Option<GroupKind> {
        match code {
            1 => Some(GroupKind::List),
            2 => Some(GroupKind::Choice),
            _ => None,
        }
    }
    fn code(self) -> u8 {
        self as u8 + 1
    }
}

impl Code for AttributeSort {
    fn from_code(code: u32) -> Option<AttributeSort> {
        [
            AttributeSort::Implied,
            AttributeSort::Required,
            AttributeSort::Fixed,
        ]
        .get(code as usize)
        .copied()
    }
    fn code(self) -> u8 {
        self as u8
    }
}

/// An element or a group, each with its quantifier.
#[derive(Clone, Debug, PartialEq, Eq)]
pub struct Particle {
    pub quantifier: Quantifier,
    pub term: Term,
}

#[derive(Clone, Debug, PartialEq, Eq)]
pub enum Term {
    /// By the index of its definition.
    Element(usize),
    Group(GroupKind, Vec<Particle>),
}

#[derive(Clone, Debug, PartialEq, Eq)]
pub struct Definition {
    pub name: Vec<u8>,
    pub kind: Kind,
    /// The members of the top list; none unless COMPLEX.
    pub model: Vec<Particle>,
}

#[derive(Clone, Debug, PartialEq, Eq)]
pub struct Attribute {
    /// The index of the definition that has it.
    pub owner: usize,
    pub name: Vec<u8>,
    pub sort: AttributeSort,
    /// REQUIRED: the fill for created rows; FIXED: the value; IMPLIED: empty.
    pub value: Vec<u8>,
}

#[derive(Clone, Debug, PartialEq, Eq, Default)]
pub struct Form {
    pub definitions: Vec<Definition>,
    pub attributes: Vec<Attribute>,
}

#[derive(Clone, Debug, PartialEq, Eq)]
pub struct Element {
    pub definition: usize,
    pub serial: u32,
    pub attributes: Vec<AttributeRow>,
    pub content: Vec<Node>,
}

#[derive(Clone, Debug, PartialEq, Eq)]
pub struct AttributeRow {
    /// Its index in the form's attributes.
    pub attribute: usize,
    pub serial: u32,
    pub value: Vec<u8>,
}

#[derive(Clone, Debug, PartialEq, Eq)]
pub struct Text {
    pub serial: u32,
    pub value: Vec<u8>,
}

#[derive(Clone, Debug, PartialEq, Eq)]
pub enum Node {
    Element(Element),
    Text(Text),
}

#[derive(Clone, Debug, PartialEq, Eq)]
pub struct Store {
    pub next_serial: u32,
    pub form: Form,
    pub documents: Vec<Element>,
}

impl Store {
    pub fn fresh() -> Store {
        Store {
            next_serial: 1,
            form: Form::default(),
            documents: Vec::new(),
        }
    }

    pub fn row_count(&self) -> usize {
        self.documents.iter().map(Element::row_count).sum()
    }

    /// The element row with this serial, if there is one.
    pub fn element(&self, serial: u32) -> Option<&Element> {
        self.documents
            .iter()
            .find_map(|document| document.find(serial))
    }

    pub fn element_mut(&mut self, serial: u32) -> Option<&mut Element> {
        self.documents
            .iter_mut()
            .find_map(|document| document.find_mut(serial))
    }

    /// Runs over all element rows in document order.
    pub fn for_each_element(&self, visit: &mut impl FnMut(&Element)) {
        for document in &self.documents {
            document.for_each(visit);
        }
    }

    /// Is there an element row of this definition?
    pub fn has_instance(&self, definition: usize) -> bool {
        let mut found = false;
        self.for_each_element(&mut |element| found |= element.definition == definition);
        found
    }
}

impl Element {
    pub fn row_count(&self) -> usize {
        let below: usize = self.content.iter().map(Node::row_count).sum();
        1 + self.attributes.len() + below
    }

    pub fn children(&self) -> impl Iterator<Item = &Element> {
        self.content.iter().filter_map(Node::element)
    }

    pub fn find(&self, serial: u32) -> Option<&Element> {
        if self.serial == serial {
            return Some(self);
        }
        self.children().find_map(|child| child.find(serial))
    }

    pub fn find_mut(&mut self, serial: u32) -> Option<&mut Element> {
        if self.serial == serial {
            return Some(self);
        }
        self.content.iter_mut().find_map(|node| match node {
            Node::Element(child) => child.find_mut(serial),
            Node::Text(_) => None,
        })
    }

    pub fn for_each(&self, visit: &mut impl FnMut(&Element)) {
        visit(self);
        for child in self.children() {
            child.for_each(visit);
        }
    }

    pub fn for_each_mut(&mut self, visit: &mut impl FnMut(&mut Element)) {
        visit(self);
        for node in &mut self.content {
            if let Node::Element(child) = node {
                child.for_each_mut(visit);
            }
        }
    }
}

impl Node {
    pub fn element(&self) -> Option<&Element> {
        match self {
            Node::Element(element) => Some(element),
            Node::Text(_) => None,
        }
    }

    pub fn row_count(&self) -> usize {
        match self {
            Node::Element(element) => element.row_count(),
            Node::Text(_) => 1,
        }
    }

    /// Is it an element of this definition?
    pub fn is_of(&self, definition: usize) -> bool {
        matches!(self, Node::Element(element) if element.definition == definition)
    }
}
