//! One write, and its way to another device: the shortest program with the crate. It stores nothing; `shopping.rs` does more.

use jdoc::{Document, Questions};

fn main() -> Result<(), jdoc::Error> {
    let mut phone = Document::new(1)?;
    let mut laptop = Document::new(2)?;
    phone.set(r#"["title"]"#, r#""Shopping""#)?;
    let bundle = phone.answer(&laptop.hello()?)?;
    laptop.receive(&bundle)?;
    println!("{}", laptop.to_json()?);
    Ok(())
}
