//! Calls on a store that is the worst of something.

use super::Worst;
use second::random::calls::places_of;
use second::random::words::{convert_to_group, plain_calls, quantifier_calls};
use second::Call;

impl Worst {
    /// All sixteen changes, most with several arguments.
    pub fn calls(&self) -> Vec<Call> {
        let mut calls = self.form_calls();
        calls.extend(self.model_calls());
        calls.extend(self.document_calls());
        calls
    }

    /// The first and the last index of a table.
    fn ends(count: usize) -> [u32; 2] {
        [0, count.saturating_sub(1) as u32]
    }

    fn form_calls(&self) -> Vec<Call> {
        let form = &self.store.form;
        let create = Call::CreateDefinition {
            name: b"more".to_vec(),
            kind: 2,
        };
        let mut calls = vec![create];
        for definition in Worst::ends(form.definitions.len()) {
            calls.push(Call::DestroyDefinition { definition });
            calls.extend([(0, ""), (1, "fill"), (2, "fixed")].map(|(sort, value)| {
                Call::AddAttribute {
                    owner: definition,
                    name: b"more".to_vec(),
                    sort,
                    value: value.as_bytes().to_vec(),
                }
            }));
        }
        let attributes = Worst::ends(form.attributes.len());
        calls.extend(attributes.map(|attribute| Call::DestroyAttribute { attribute }));
        calls
    }

    /// At the first and the last place of each length.
    fn model_calls(&self) -> Vec<Call> {
        let (mut places, members) = places_of(&self.store.form.definitions[0].model);
        places.extend(members);
        places.sort_by_key(|place| (place.len(), place.clone()));
        let of_one_length = places.chunk_by(|one, other| one.len() == other.len());
        let ends = of_one_length.flat_map(|places| [&places[0], &places[places.len() - 1]]);
        let inserted = [1, self.store.form.definitions.len() - 1];
        let mut calls = Vec::new();
        for place in ends {
            for (quantifier, definition) in (0..4).flat_map(|q| inserted.map(|last| (q, last))) {
                calls.extend(quantifier_calls(place, definition, quantifier, "new"));
            }
            calls.extend([1, 2].map(|count| convert_to_group(place, count, 1)));
            calls.extend(plain_calls(place));
        }
        calls
    }

    fn document_calls(&self) -> Vec<Call> {
        let definitions = Worst::ends(self.store.form.definitions.len());
        let text = || b"new".to_vec();
        let mut calls: Vec<Call> = definitions
            .map(|definition| Call::AddDocument {
                definition,
                text: text(),
            })
            .into();
        let mut elements = Vec::new();
        self.store
            .for_each_element(&mut |element| elements.push(element.serial));
        let last = elements.split_off(elements.len() - elements.len().min(3));
        elements.truncate(3);
        for element in elements.into_iter().chain(last) {
            calls.push(Call::DestroyElement { element });
            calls.push(Call::SetText {
                element,
                text: text(),
            });
            for attribute in Worst::ends(self.store.form.attributes.len()) {
                calls.push(Call::SetAttribute {
                    element,
                    attribute,
                    value: text(),
                });
                calls.push(Call::DestroyAttributeRow { element, attribute });
            }
            calls.extend([0, 1].map(|child| Call::AddElement {
                parent: element,
                child,
                definition: 1,
                text: text(),
            }));
        }
        calls
    }
}
