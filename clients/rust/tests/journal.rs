//! A journal that the program keeps, and a reader next to its document.

use jdoc::{Document, Error, Id, Questions, Status};

#[test]
fn a_document_goes_on_from_its_lines() -> Result<(), Error> {
    let mut document = Document::new(7)?;
    document.set(r#"["a"]"#, "1")?;
    let mut journal = document.lines()?;
    document.stored()?;
    assert_eq!(document.lines()?, b"");
    document.set(r#"["b"]"#, "2")?;
    // Lines that were given but not called stored are given again.
    assert_eq!(document.lines()?, document.lines()?);
    journal.extend(document.lines()?);
    let whole = journal.len();
    journal.extend(b"[\"own\",[3");

    let (mut again, taken) = Document::resume(0, &journal)?;
    assert_eq!(taken, whole);
    assert_eq!(again.get("[]")?, r#"{"a":1,"b":2}"#);
    assert_eq!(
        again.status()?,
        Status {
            number: 7,
            length: 2,
            saved: 2
        }
    );
    assert_eq!(again.lines()?, b"");
    assert_eq!(
        again.set(r#"["c"]"#, "3")?,
        Id {
            counter: 3,
            replica: 7
        }
    );
    Ok(())
}

#[test]
fn what_is_no_journal_of_this_number_is_not_opened() -> Result<(), Error> {
    let mut document = Document::new(7)?;
    document.set(r#"["a"]"#, "1")?;
    let journal = document.lines()?;
    assert_eq!(Document::resume(8, &journal).err(), Some(Error::BadNumber));
    assert_eq!(Document::resume(0, b"").err(), Some(Error::BadNumber));
    assert_eq!(
        Document::resume(7, b"[\"own\",[2,7],[\"delete\",[]]]\n").err(),
        Some(Error::Unfit)
    );
    Ok(())
}

#[test]
fn a_refusal_has_its_code() -> Result<(), Error> {
    let mut document = Document::new(1)?;
    assert_eq!(
        document.insert_after(r#"["list",1]"#, "1").err(),
        Some(Error::Refused(3))
    );
    assert_eq!(
        document.set(r#"["a"]"#, "1.5").err(),
        Some(Error::Refused(21))
    );
    assert_eq!(document.answer("what?").err(), Some(Error::Refused(22)));
    assert_eq!(document.status()?.length, 0);
    Ok(())
}

#[test]
fn a_reader_shows_as_much_as_it_has_taken_in() -> Result<(), Error> {
    let mut document = Document::new(1)?;
    let mut reader = document.reader(1)?;
    document.set(r#"["a"]"#, "1")?;
    document.set(r#"["a"]"#, "2")?;
    assert_eq!(
        (reader.follow()?, reader.get("[]")?),
        (1, r#"{"a":1}"#.to_owned())
    );
    assert_eq!(reader.follow()?, 1);
    document.feed()?;
    assert_eq!(
        (reader.follow()?, reader.values(r#"["a"]"#)?),
        (2, "[[[2,1],2]]".to_owned())
    );
    drop(document);
    assert_eq!(
        (reader.follow()?, reader.get("[]")?),
        (2, r#"{"a":2}"#.to_owned())
    );
    assert_eq!(reader.ask(r#"["status"]"#)?, r#"["refused","E22"]"#);
    Ok(())
}

#[test]
fn items_are_appended() -> Result<(), Error> {
    let mut document = Document::new(1)?;
    document.append(r#"["list"]"#, r#""eggs""#)?;
    document.append(r#"["list"]"#, r#""milk""#)?;
    document.insert_after(r#"["list",[1,1]]"#, r#""ham""#)?;
    document.append(r#"["list"]"#, "[]")?;
    document.append(r#"["list",4]"#, "7")?;
    assert_eq!(document.to_json()?, r#"{"list":["eggs","ham","milk",[7]]}"#);
    Ok(())
}
