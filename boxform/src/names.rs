//! What the words of a command name in a store: definitions, attributes, places and children.

use crate::failure::Failure;
use crate::form::Form;
use crate::given::{number, Given};
use crate::lists::Lists;
use formstore::{Attribute, Place, Store};

impl Given {
    /// The index of a definition that is given by name or index. An index past the table is the library's to refuse.
    pub fn definition(&self, flag: &str, store: &Store) -> Result<u32, Failure> {
        let text = self.text(flag);
        let form = Form::of(store);
        let found = number(&text).or_else(|| form.index(&text));
        found.ok_or_else(|| self.unknown(flag, form.names()))
    }

    /// The index of an attribute that is given as OWNER.NAME, as NAME or by index. Where an element is given too, a
    /// NAME is of its attributes alone.
    pub fn attribute(&self, store: &Store) -> Result<u32, Failure> {
        let text = self.text("attribute");
        if let Some(index) = number(&text) {
            return Ok(index);
        }
        let form = Form::of(store);
        let element = number(&self.text("element"));
        let owner = element.and_then(|serial| Lists::of(store).definition(serial));
        let fits = |attribute: &Attribute| {
            let own = owner.is_none_or(|owner| owner == attribute.owner);
            form.attribute_name(attribute) == text || own && attribute.name == text
        };
        let fitting: Vec<Attribute> = form.reader.attributes().filter(fits).collect();
        match &fitting[..] {
            [one] => Ok(one.index),
            [] => Err(self.unknown("attribute", form.attribute_names(form.reader.attributes()))),
            several => {
                let words = several.iter().map(|attribute| {
                    format!(
                        "{} (index {})",
                        form.attribute_name(attribute),
                        attribute.index
                    )
                });
                let words = words.collect::<Vec<_>>().join(" or ");
                Err(self.wrong("attribute", &format!("it can be {words}; give the index")))
            }
        }
    }

    /// The owner of a model, and a place in it.
    pub fn place(&self, store: &Store) -> Result<(u32, Vec<u32>), Failure> {
        let form = Form::of(store);
        let text = self.text("place");
        let mut steps: Vec<&str> = text.split('/').collect();
        let mut outward = 0;
        while steps.last() == Some(&"..") {
            steps.pop();
            outward += 1;
        }
        let member = steps.pop().unwrap_or_default();
        let owner = self.owner(store, &form, &steps)?;
        let mut place = self.member(&form, owner, member)?;
        if outward > 0 && outward >= place.len() {
            return Err(self.wrong(
                "place",
                &format!(
                    "{member} stands in no such group of {}",
                    form.content(owner)
                ),
            ));
        }
        place.truncate(place.len() - outward);
        Ok((owner, place))
    }

    /// The definition that the steps of a place lead to from the owner, each a member of the model of the one before.
    fn owner(&self, store: &Store, form: &Form, steps: &[&str]) -> Result<u32, Failure> {
        let mut owner = match self.has("owner") {
            true => Some(self.definition("owner", store)?),
            false => None,
        };
        for step in steps {
            let next = form
                .index(step)
                .ok_or_else(|| self.unknown_part("place", step, form.names()))?;
            match owner {
                Some(owner) if owner != next && form.place_of(owner, next).is_none() => {
                    return Err(self.not_in(form, owner, step));
                }
                _ => owner = Some(next),
            }
        }
        let missing = "--owner is missing: give the definition whose model it is, or the place as OWNER/PLACE";
        owner.ok_or_else(|| Failure::Use(missing.to_string()))
    }

    /// The place of one member, by numbers or by name.
    fn member(&self, form: &Form, owner: u32, member: &str) -> Result<Vec<u32>, Failure> {
        if member.starts_with(|first: char| first.is_ascii_digit()) {
            let place = member.parse::<Place>().map(|place| place.to_vec());
            return place.map_err(|_| {
                self.wrong(
                    "place",
                    "give a name, or one to five numbers with - between them, as 2-1",
                )
            });
        }
        if form.kind(owner).is_none() {
            return Err(self.wrong("owner", "no definition has this index"));
        }
        let Some(definition) = form.index(member) else {
            let known = form
                .members(owner)
                .map(|definition| form.name(definition).to_string());
            return Err(self.unknown_part("place", member, known.collect()));
        };
        form.place_of(owner, definition)
            .ok_or_else(|| self.not_in(form, owner, member))
    }

    fn not_in(&self, form: &Form, owner: u32, member: &str) -> Failure {
        let text = format!(
            "{member} is not in the model of {}, {}",
            form.name(owner),
            form.content(owner)
        );
        self.wrong("place", &text)
    }

    /// How many elements stand before a new child. `end` is behind all that are there.
    pub fn child(&self, store: &Store) -> Result<u32, Failure> {
        if self.text("child") == "end" {
            let parent = self.number("parent")?;
            return Ok(Lists::of(store).children(parent).count() as u32);
        }
        let count = number(&self.text("child"));
        count.ok_or_else(|| self.wrong("child", "give a number from 0, or end"))
    }
}
