//! The story of the program `clubform`: a club shapes its form while a finish list stands in the box.

use formstore::{Kind, Quantifier, Refusal, Store};

const RACE: u32 = 0;
const FINISHER: u32 = 1;
const BIB: u32 = 2;
const TIME: u32 = 3;
const CLUB: u32 = 4;

fn clubform() -> Result<Store, Refusal> {
    let mut store = Store::fresh();
    store.create_definition(b"race", Kind::Complex)?;
    store.create_definition(b"finisher", Kind::Complex)?;
    store.create_definition(b"bib", Kind::Pcdata)?;
    store.create_definition(b"time", Kind::Pcdata)?;
    store.insert_element(RACE, &[0], FINISHER, Quantifier::Star, b"")?;
    store.insert_element(FINISHER, &[0], BIB, Quantifier::None, b"0")?;
    store.insert_element(FINISHER, &[1], TIME, Quantifier::None, b"-")?;

    // The race gets serial 1, its first finisher 2, with bib and time below.
    store.add_document(RACE, b"")?;
    store.add_element(1, 0, FINISHER, b"7")?;
    store.set_text(5, b"19:04")?;

    // The list that stands in the box follows the form.
    store.create_definition(b"club", Kind::Pcdata)?;
    store.insert_element(FINISHER, &[1], CLUB, Quantifier::None, b"none")?;
    store.change_quantifier(FINISHER, &[3], Quantifier::Qmark, b"")?;
    Ok(store)
}

fn main() -> Result<(), Box<dyn std::error::Error>> {
    let text = clubform()?.print()?;
    std::io::Write::write_all(&mut std::io::stdout(), &text)?;
    Ok(())
}

#[cfg(test)]
mod tests {
    use super::*;

    const TEXT: &str = "<!ELEMENT race (finisher*)>
<!ELEMENT finisher (bib,club,time?)>
<!ELEMENT bib (#PCDATA)>
<!ELEMENT time (#PCDATA)>
<!ELEMENT club (#PCDATA)>
<race><finisher><bib>7</bib><club>none</club><time>19:04</time></finisher></race>
";

    #[test]
    fn leaves_its_store_and_text() {
        let store = clubform().expect("no change is refused");
        assert_eq!(store.as_bytes().len(), 508);
        assert_eq!(store.reader().next_serial(), 9);
        let text = store.print().expect("it passes");
        assert_eq!(String::from_utf8_lossy(&text), TEXT);
        assert_eq!(store.look_up(6), Ok(&b"19:04"[..]));
        assert_eq!(store.look_up(5), Err(Refusal::NoRow));
        let again = Store::from_bytes(store.as_bytes().to_vec());
        assert_eq!(again, Ok(store));
    }
}
