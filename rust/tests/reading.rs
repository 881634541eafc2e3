//! Reading a store by names, and texts and numbers that become places, kinds, sorts, quantifiers, refusals and stores.

mod common;

use common::finish_list;
use formstore::*;

#[test]
fn definitions_by_name() {
    let store = finish_list();
    let reader = store.reader();
    let finisher = reader.definition_named("finisher").expect("a finisher");
    assert_eq!((finisher.index, finisher.kind), (1, Kind::Complex));
    assert_eq!(reader.definition(1), Some(finisher));
    assert_eq!(reader.definition(5), None);
    assert_eq!(reader.definition_named("team"), None);
    let time = reader.definition_named("time").expect("a time");
    let model = reader.model(finisher.index).expect("its model");
    assert_eq!(model.to_string(), "(bib,club,time?)");
    assert_eq!(model.place_of(time.index).as_deref(), Some(&[3][..]));
    assert_eq!(model.place_of(finisher.index), None);
    assert_eq!(
        reader.model(time.index).map(|model| model.to_string()),
        Some("(#PCDATA)".to_string())
    );
    assert!(reader.model(5).is_none());
}

#[test]
fn attributes_by_name() {
    let mut store = finish_list();
    assert_eq!(
        store.add_attribute(1, b"sex", AttributeSort::Required, b"f"),
        Ok(())
    );
    assert_eq!(
        store.add_attribute(0, b"day", AttributeSort::Fixed, b"Sunday"),
        Ok(())
    );
    let reader = store.reader();
    let sex = reader.attribute_named(1, "sex").expect("the attribute");
    assert_eq!(
        (sex.index, sex.sort, sex.value),
        (1, AttributeSort::Required, "f")
    );
    assert_eq!(reader.attribute(1), Some(sex));
    assert_eq!(reader.attribute_named(0, "sex"), None);
    assert_eq!(reader.attributes_of(0).count(), 1);
    let finisher = reader.element(2).expect("a finisher");
    let rows: Vec<Content> = finisher.attributes().map(|row| row.content).collect();
    let (attribute, value) = (1, "f");
    assert_eq!(rows, [Content::Attribute { attribute, value }]);
}

#[test]
fn groups_and_places() {
    let mut store = finish_list();
    assert_eq!(store.convert_to_group(1, &[2], 2, GroupSort::List), Ok(()));
    assert_eq!(
        store.convert_to_group(1, &[2, 2], 1, GroupSort::Choice),
        Ok(())
    );
    let model = store.reader().model(1).expect("the model of finisher");
    assert_eq!(model.to_string(), "(bib,(club,(time?)))");
    let places: Vec<String> = model
        .particles()
        .map(|(place, _)| place.to_string())
        .collect();
    assert_eq!(places, ["1", "2", "2-1", "2-2", "2-2-1"]);
    let inner = model.members().nth(1).map(|member| member.term);
    let Some(Term::Group {
        sort: GroupSort::List,
        members,
    }) = inner
    else {
        panic!("{inner:?} is no list");
    };
    assert_eq!(members.count(), 2);
    let place = model.place_of(3).expect("the time");
    assert_eq!(
        store.change_quantifier(1, &place, Quantifier::Star, b""),
        Ok(())
    );
}

#[test]
fn places_as_text() {
    for text in ["0", "1", "2-3", "1-1-1-1-1", "4294967295"] {
        assert_eq!(
            text.parse::<Place>().map(|place| place.to_string()),
            Ok(text.to_string())
        );
    }
    for text in [
        "",
        "-",
        "1-",
        "-1",
        "+1",
        "1--2",
        "4294967296",
        "1-1-1-1-1-1",
        "x",
        " 1",
    ] {
        assert_eq!(text.parse::<Place>(), Err(UnknownPlace), "{text}");
    }
    assert_eq!(Place::try_from(&[2, 3][..]), "2-3".parse());
    assert_eq!(Place::try_from(&[][..]), Err(UnknownPlace));
    assert_eq!(Place::try_from(&[1; 6][..]), Err(UnknownPlace));
}

fn all_cases<C: Code + PartialEq + std::fmt::Debug>() {
    for case in C::ALL {
        assert_eq!(C::try_from((*case).into()), Ok(*case));
        assert_eq!(case.to_string().parse(), Ok(*case));
    }
    for wrong in [3 + C::ALL.len() as u32, 256, u32::MAX] {
        assert!(C::try_from(wrong).is_err());
    }
    let told = "no word"
        .parse::<C>()
        .map_err(|unknown| unknown.to_string());
    let words: Vec<&str> = C::ALL.iter().map(|case| case.word()).collect();
    assert_eq!(
        told,
        Err(format!("unknown; there are: {}", words.join(", ")))
    );
}

#[test]
fn codes_by_word_and_number() {
    all_cases::<Kind>();
    all_cases::<Quantifier>();
    all_cases::<GroupSort>();
    all_cases::<AttributeSort>();
    assert_eq!("star".parse(), Ok(Quantifier::Star));
    assert!(GroupSort::try_from(0).is_err());
}

#[test]
fn refusals_by_number() {
    for refusal in Refusal::ALL {
        assert_eq!(Refusal::try_from(refusal.number()), Ok(refusal));
    }
    for number in [0, 20, u32::MAX] {
        assert_eq!(Refusal::try_from(number), Err(UnknownRefusal));
    }
}

/// A store without attributes, empty models and groups comes back as it was, but for its serials; one with them need
/// not.
#[test]
fn stores_from_texts() {
    let store = finish_list();
    let text = store.print().expect("it passes");
    let read = Store::read_text(&text).expect("it was printed");
    assert_eq!(read.as_bytes().len(), store.as_bytes().len());
    assert_eq!(read.print().as_ref(), Ok(&text));
    let serials: Vec<u32> = read.reader().rows().map(|row| row.serial).collect();
    assert!(serials.into_iter().eq(1..read.reader().next_serial()));
    assert_eq!(Store::read_text(b""), Ok(Store::fresh()));
    assert_eq!(Store::read_text(&text[1..]), Err(Refusal::BadText));
    let mut form = Store::fresh();
    assert_eq!(form.create_definition(b"a", Kind::Complex), Ok(()));
    assert_eq!(
        form.add_attribute(0, b"r", AttributeSort::Required, b"fill"),
        Ok(())
    );
    let read = Store::read_text(&form.print().expect("it passes")).expect("it was printed");
    let reader = read.reader();
    assert_eq!(reader.definition(0).map(|own| own.kind), Some(Kind::Empty));
    assert_eq!(reader.attribute(0).map(|own| own.value), Some("-"));
}

#[test]
fn stores_from_bytes() {
    let store = finish_list();
    let bytes: Vec<u8> = store.clone().into();
    assert_eq!(store.as_ref(), bytes);
    assert_eq!(Store::try_from(&bytes[..]), Ok(store.clone()));
    assert_eq!(Store::try_from(bytes.clone()), Ok(store));
    assert_eq!(Store::try_from(&bytes[1..]), Err(Refusal::BadStore));
    assert!(Reader::try_from(&bytes[..]).is_ok());
    assert_eq!(Store::fresh().as_bytes(), FRESH);
}
