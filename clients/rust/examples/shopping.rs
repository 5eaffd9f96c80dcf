//! Two devices that write concurrently and exchange, and a reader in a thread.

use jdoc::{Document, Error, Questions};
use std::thread;

fn main() -> Result<(), Error> {
    let mut phone = Document::new(1)?;
    let mut laptop = Document::new(2)?;
    let mut reader = phone.reader(16)?;
    let shown = thread::spawn(move || -> Result<String, Error> {
        while reader.follow()? < 5 {
            thread::yield_now();
        }
        reader.get("[]")
    });

    phone.set(r#"["list"]"#, "[]")?;
    phone.insert_after(r#"["list",0]"#, r#""milk""#)?;
    phone.sync(&mut laptop)?;
    let eggs = laptop.insert_after(r#"["list",1]"#, r#""eggs""#)?;
    laptop.set(r#"["title"]"#, r#""Sunday""#)?;
    phone.set(r#"["title"]"#, r#""Saturday""#)?;
    phone.sync(&mut laptop)?;
    println!(
        "phone: {:?}, {}",
        phone.status()?,
        phone.values(r#"["title"]"#)?
    );
    println!("reader: {}", shown.join().expect("no panic")?);
    laptop.set(r#"["title"]"#, r#""Shopping""#)?;
    laptop.delete(&format!(r#"["list",[{},{}]]"#, eggs.counter, eggs.replica))?;
    println!("laptop: {}, {}", laptop.get("[]")?, laptop.keys("[]")?);
    Ok(())
}
