//! The form of a store as a person names it: definitions and attributes by name, members of models by place.

use formstore::{
    Attribute, AttributeSort, GroupSort, Kind, Members, Particle, Place, Reader, Store, Term,
};

#[derive(Clone, Copy)]
pub struct Form<'a> {
    pub reader: Reader<'a>,
}

impl<'a> Form<'a> {
    pub fn of(store: &'a Store) -> Form<'a> {
        Form {
            reader: store.reader(),
        }
    }

    /// The name of the definition with this index.
    pub fn name(&self, definition: u32) -> &'a str {
        let found = self.reader.definition(definition);
        found.map_or("", |definition| definition.name)
    }

    pub fn kind(&self, definition: u32) -> Option<Kind> {
        let found = self.reader.definition(definition);
        found.map(|definition| definition.kind)
    }

    /// The names of the definitions, by their indices.
    pub fn names(&self) -> Vec<String> {
        let definitions = self.reader.definitions();
        definitions
            .map(|definition| definition.name.to_string())
            .collect()
    }

    /// The index of the definition with this name.
    pub fn index(&self, name: &str) -> Option<u32> {
        let found = self.reader.definition_named(name);
        found.map(|definition| definition.index)
    }

    /// OWNER.NAME.
    pub fn attribute_name(&self, attribute: &Attribute) -> String {
        format!("{}.{}", self.name(attribute.owner), attribute.name)
    }

    /// OWNER.NAME of these attributes.
    pub fn attribute_names(&self, attributes: impl Iterator<Item = Attribute<'a>>) -> Vec<String> {
        attributes
            .map(|attribute| self.attribute_name(&attribute))
            .collect()
    }

    /// What the DTD says an element holds: `EMPTY`, `(#PCDATA)` or its model.
    pub fn content(&self, definition: u32) -> String {
        let model = self.reader.model(definition);
        model.map_or_else(String::new, |model| model.to_string())
    }

    /// The same, where a complex definition without members is told from an EMPTY one, which the DTD does not.
    pub fn described(&self, definition: u32) -> String {
        let mut text = self.content(definition);
        if self.kind(definition) == Some(Kind::Complex) && self.members(definition).next().is_none()
        {
            text += " (complex, no members yet)";
        }
        text
    }

    /// The list that the last number of a place counts in: its sort and its members.
    pub fn list_at(&self, owner: u32, place: &[u32]) -> Option<(GroupSort, Members<'a>)> {
        let (_, groups) = place.split_last()?;
        if groups.is_empty() {
            return Some((GroupSort::List, self.reader.model(owner)?.members()));
        }
        match self.particle_at(owner, groups)?.term {
            Term::Group { sort, members } => Some((sort, members)),
            Term::Element { .. } => None,
        }
    }

    pub fn particle_at(&self, owner: u32, place: &[u32]) -> Option<Particle<'a>> {
        let mut particles = self.reader.model(owner)?.particles();
        let found = particles.find(|(here, _)| **here == *place);
        found.map(|(_, particle)| particle)
    }

    /// Every particle of a model with its place, in preorder.
    pub fn places(&self, owner: u32) -> impl Iterator<Item = (Place, Particle<'a>)> {
        let model = self.reader.model(owner);
        model.into_iter().flat_map(|model| model.particles())
    }

    /// The definitions that stand in a model.
    pub fn members(&self, owner: u32) -> impl Iterator<Item = u32> + use<'a> {
        self.places(owner)
            .filter_map(|(_, particle)| match particle.term {
                Term::Element { definition } => Some(definition),
                Term::Group { .. } => None,
            })
    }

    /// Where the element stands in a model; a name stands in it once at the most.
    pub fn place_of(&self, owner: u32, definition: u32) -> Option<Vec<u32>> {
        let place = self.reader.model(owner)?.place_of(definition)?;
        Some(place.to_vec())
    }

    /// A particle as the DTD has it.
    pub fn text(&self, particle: &Particle) -> String {
        let mark = particle.quantifier.mark();
        match &particle.term {
            Term::Element { definition } => format!("{}{mark}", self.name(*definition)),
            Term::Group { sort, members } => {
                let texts: Vec<String> = members.clone().map(|member| self.text(&member)).collect();
                let between = if *sort == GroupSort::List { "," } else { "|" };
                format!("({}){mark}", texts.join(between))
            }
        }
    }
}

/// What the DTD says of an attribute after `CDATA`; the fill of a required one, which it does not say, is added.
pub fn attribute_text(attribute: &Attribute) -> String {
    match attribute.sort {
        AttributeSort::Implied => "#IMPLIED".to_string(),
        AttributeSort::Required => format!("#REQUIRED, fill {}", quoted(attribute.value)),
        AttributeSort::Fixed => format!("#FIXED {}", quoted(attribute.value)),
    }
}

/// A value between quotes, with a `\` before each quote and `\` in it.
pub fn quoted(value: &str) -> String {
    format!("\"{}\"", value.replace('\\', "\\\\").replace('"', "\\\""))
}

/// A place as it is given: numbers with `-` between them.
pub fn place_text(place: &[u32]) -> String {
    Place::try_from(place).map_or_else(|_| String::new(), |place| place.to_string())
}
