//! The language of models, against a slow matcher that follows the words of
//! the paper; fillings conform.

use second::check::Judge;
use second::filling::Maker;
use second::model::{elements_of, Language};
use second::random::forms;
use second::random::history::seed;
use second::rng::Rng;
use second::store::*;
use std::collections::BTreeSet;

/// Where in the word a particle can end that begins at one of the starts.
fn ends(particle: &Particle, word: &[usize], starts: &BTreeSet<usize>) -> BTreeSet<usize> {
    let once = |starts: &BTreeSet<usize>| match &particle.term {
        Term::Element(index) => {
            let fits = |start: &&usize| word.get(**start) == Some(index);
            starts.iter().filter(fits).map(|start| start + 1).collect()
        }
        Term::Group(GroupKind::List, members) => ends_of_list(members, word, starts),
        Term::Group(GroupKind::Choice, members) => members
            .iter()
            .flat_map(|member| ends(member, word, starts))
            .collect(),
    };
    let mut reached = once(starts);
    if particle.quantifier.is_repeated() {
        for _ in 0..word.len() {
            let again = once(&reached);
            reached.extend(again);
        }
    }
    if !particle.quantifier.is_required() {
        reached.extend(starts);
    }
    reached
}

fn ends_of_list(members: &[Particle], word: &[usize], starts: &BTreeSet<usize>) -> BTreeSet<usize> {
    let mut reached = starts.clone();
    for member in members {
        reached = ends(member, word, &reached);
    }
    reached
}

fn words(names: usize, length: usize) -> Vec<Vec<usize>> {
    let mut words = vec![Vec::new()];
    let mut last = words.clone();
    for _ in 0..length {
        let mut longer = Vec::new();
        for word in &last {
            longer.extend((0..names).map(|name| [&word[..], &[name]].concat()));
        }
        words.extend(longer.clone());
        last = longer;
    }
    words
}

#[test]
fn language_is_that_of_the_slow_matcher() {
    let mut rng = Rng::new(seed());
    let words = words(3, 5);
    let (mut inside, mut outside) = (0, 0);
    for _ in 0..1500 {
        let mut names = [0, 1, 2];
        rng.shuffle(&mut names);
        let model = forms::members(&mut rng, &names, 0);
        let language = Language::of(&model);
        for word in &words {
            let reached = ends_of_list(&model, word, &BTreeSet::from([0]));
            let wanted = reached.contains(&word.len());
            assert_eq!(language.accepts(word), wanted, "{model:?} and {word:?}");
            *(if wanted { &mut inside } else { &mut outside }) += 1;
        }
        let nothing = GroupKind::List.accepts_nothing(&model);
        assert_eq!(nothing, language.accepts(&[]), "{model:?}");
    }
    println!("{inside} words inside, {outside} outside");
    assert!(inside > 10_000 && outside > 10_000);
}

#[test]
fn fillings_conform() {
    let mut rng = Rng::new(seed());
    let mut filled = 0;
    for _ in 0..2000 {
        let form = forms::form(&mut rng, 10, 8);
        let judge = Judge::of(&form);
        for definition in 0..form.definitions.len() {
            let mut maker = Maker::new(&form, 1, b"text");
            let Ok(element) = maker.element(definition) else {
                continue;
            };
            assert!(judge.conforms(&element));
            assert_eq!(element.row_count(), maker.made);
            filled += 1;
        }
    }
    assert!(filled > 1000);
}

/// The set of a model's elements counts each once: no name stands twice.
#[test]
fn random_models_have_no_name_twice() {
    let mut rng = Rng::new(seed());
    for _ in 0..200 {
        let model = forms::members(&mut rng, &[4, 7, 63], 0);
        let set = (1 << 4) | (1 << 7) | (1 << 63);
        assert_eq!(elements_of(&model), set);
    }
}
