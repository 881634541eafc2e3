//! The library prints the stores of random histories, and xmllint finds every document valid.

use compare::agreed;
use second::random::documents;
use second::random::history::{seed, Moment};
use second::rng::Rng;
use second::testing::xmllint::{are_valid, scratch_folder, wrapped};
use std::path::{Path, PathBuf};

const DOCUMENTS: usize = 10_000;
/// So many go to one run of xmllint.
const BATCH: usize = 400;

/// The texts of the stores at some moments of a history, which begins at the fresh store or at a built one.
fn texts(seed: u64) -> Vec<Vec<u8>> {
    let mut rng = Rng::new(seed);
    let mut moment = match rng.below(2) {
        0 => Moment::fresh(),
        _ => Moment::at(documents::store(&mut rng, 9, 8, 400)),
    };
    let mut texts = Vec::new();
    for number in 1..=120 {
        let call = moment.random_call(&mut rng);
        let buffer = vec![0; moment.bytes.len() + 50_000];
        let (answer, mut out) = agreed(&call, &moment.bytes, &buffer);
        out.truncate(answer.length);
        moment.note(&call, (answer.number == 0).then_some(out));
        if number % 20 == 0 {
            texts.push(printed(&moment.bytes));
        }
    }
    texts
}

fn printed(store: &[u8]) -> Vec<u8> {
    let mut text = vec![0; 1 << 20];
    let answer = compare::print(store, &mut text);
    assert_eq!(answer.number, 0);
    text.truncate(answer.length);
    text
}

/// Each document of a text with the declarations of the text in front of it.
fn documents_of(text: &[u8]) -> Vec<Vec<u8>> {
    let lines = text.split_inclusive(|byte| *byte == b'\n');
    let (declarations, documents): (Vec<&[u8]>, Vec<&[u8]>) =
        lines.partition(|line| line.starts_with(b"<!"));
    let declarations = declarations.concat();
    let wrap = |document: &&[u8]| {
        let root = document[1..].split(|byte| b" >".contains(byte)).next();
        wrapped(root.expect("a name"), &declarations, document)
    };
    documents.iter().map(wrap).collect()
}

fn written(folder: &Path, number: usize, document: &[u8]) -> PathBuf {
    let file = folder.join(format!("{number}.xml"));
    std::fs::write(&file, document).expect("the file can be written");
    file
}

#[test]
fn printed_documents_are_valid() {
    let folder = scratch_folder("compare");
    let mut seed = seed();
    let (mut files, mut judged) = (Vec::new(), 0);
    while judged < DOCUMENTS {
        for text in texts(seed) {
            for document in documents_of(&text) {
                files.push(written(&folder, files.len(), &document));
            }
        }
        if files.len() >= BATCH {
            assert!(are_valid(&files), "see {}", folder.display());
            judged += files.len();
            files.clear();
        }
        seed = seed.wrapping_add(1);
    }
    println!("{judged} documents are valid");
    // The judge is awake: one child too many among good documents.
    let form = b"<!ELEMENT a (b?)>\n<!ELEMENT b EMPTY>\n";
    for (document, valid) in [("<a><b></b></a>", true), ("<a><b></b><b></b></a>", false)] {
        let text = [form, document.as_bytes()].concat();
        files.push(written(&folder, files.len(), &documents_of(&text)[0]));
        assert_eq!(are_valid(&files), valid, "{document}");
    }
    let _ = std::fs::remove_dir_all(folder);
}
