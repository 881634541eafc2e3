//! *Filling*: the rows that a change makes.

use crate::outcome::Refusal;
use crate::store::*;

/// Makes rows with rising serials and counts them.
///
/// The filling of a form of n definitions can have 3 * 2^(n-2) rows, so the
/// maker stops as soon as it has made more than the ceiling: whatever the
/// change takes, the rows made are all left in the store, and 16 applies.
pub struct Maker<'a> {
    form: &'a Form,
    text: &'a [u8],
    next_serial: u32,
    pub made: usize,
}

impl<'a> Maker<'a> {
    pub fn new(form: &'a Form, next_serial: u32, text: &'a [u8]) -> Maker<'a> {
        Maker {
            form,
            text,
            next_serial,
            made: 0,
        }
    }

    /// The serial of one more row. It may wrap: then 17 applies in the end.
    pub fn serial(&mut self) -> Result<u32, Refusal> {
        if self.made == MAX_ROWS {
            return Err(Refusal::Ceiling);
        }
        let serial = self.next_serial.wrapping_add(self.made as u32);
        self.made += 1;
        Ok(serial)
    }

    /// The filling of a definition.
    pub fn element(&mut self, definition: usize) -> Result<Element, Refusal> {
        let form = self.form;
        let mut element = Element {
            definition,
            serial: self.serial()?,
            attributes: Vec::new(),
            content: Vec::new(),
        };
        for (index, attribute) in form.attributes.iter().enumerate() {
            if attribute.owner == definition && attribute.sort == AttributeSort::Required {
                element.attributes.push(AttributeRow {
                    attribute: index,
                    serial: self.serial()?,
                    value: attribute.value.clone(),
                });
            }
        }
        match form.definitions[definition].kind {
            Kind::Empty => {}
            Kind::Pcdata => element.content.push(Node::Text(Text {
                serial: self.serial()?,
                value: self.text.to_vec(),
            })),
            Kind::Complex => {
                for particle in &form.definitions[definition].model {
                    self.particle(particle, &mut element.content)?;
                }
            }
        }
        Ok(element)
    }

    /// The filling of a particle, behind the rows made before it.
    pub fn particle(&mut self, particle: &Particle, rows: &mut Vec<Node>) -> Result<(), Refusal> {
        if particle.accepts_nothing() {
            return Ok(());
        }
        match &particle.term {
            Term::Element(definition) => rows.push(Node::Element(self.element(*definition)?)),
            Term::Group(GroupKind::List, members) => {
                for member in members {
                    self.particle(member, rows)?;
                }
            }
            Term::Group(GroupKind::Choice, members) => self.particle(&members[0], rows)?,
        }
        Ok(())
    }
}
