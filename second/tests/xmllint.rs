//! The check against xmllint on random documents, conforming and not.
//!
//! Left out is what XML text cannot show (one text row in PCDATA, the order of
//! attribute rows, serials, layout), blank texts in element content, which XML
//! allows and the paper does not, and attributes called `xmlns`.

use second::layout::encode;
use second::print::{declarations, text_of};
use second::random::history::seed;
use second::random::{documents, forms};
use second::rng::Rng;
use second::store::*;
use second::testing::xmllint::{are_valid, scratch_folder, wrapped};
use std::time::{Duration, Instant};

const DOCUMENTS: usize = 400;
const TIME: Duration = Duration::from_secs(20);

#[test]
fn verdicts_agree() {
    let seed = seed();
    let folder = scratch_folder("second");
    let mut rng = Rng::new(seed);
    let (mut good, mut bad) = (0, 0);
    let start = Instant::now();
    while good + bad < DOCUMENTS || (good + bad < 3 * DOCUMENTS && start.elapsed() < TIME) {
        let Some(store) = one_document(&mut rng) else {
            continue;
        };
        let passes = second::check(&encode(&store)) == 0;
        let file = folder.join(format!("{}.xml", good + bad));
        std::fs::write(&file, text_with_declarations(&store)).expect("the file can be written");
        let valid = are_valid(&[&file]);
        assert_eq!(passes, valid, "see {}", file.display());
        *(if passes { &mut good } else { &mut bad }) += 1;
    }
    println!("{good} conforming, {bad} not conforming");
    assert!(good >= 100 && bad >= 100);
    let _ = std::fs::remove_dir_all(folder);
}

/// A store of one document, which two times in three is spoilt.
fn one_document(rng: &mut Rng) -> Option<Store> {
    let mut store = Store::fresh();
    store.form = forms::form(rng, 8, 8);
    let complex = |index: &usize| !store.form.definitions[*index].model.is_empty();
    let roots: Vec<usize> = (0..store.form.definitions.len()).filter(complex).collect();
    let root = match rng.pick(&roots) {
        Some(root) if rng.chance(90) => *root,
        _ => rng.below(store.form.definitions.len()),
    };
    let mut document = documents::document(rng, &store.form, root, 400)?;
    if rng.chance(67) {
        documents::spoil(rng, &store.form, &mut document);
    }
    store.documents.push(document);
    documents::number(rng, &mut store);
    Some(store)
}

fn text_with_declarations(store: &Store) -> Vec<u8> {
    let declared = declarations(&store.form);
    let text = text_of(store);
    let root = &store.form.definitions[store.documents[0].definition].name;
    wrapped(root, &declared, &text[declared.len()..])
}
