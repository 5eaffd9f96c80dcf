//! faces COUNT: writes, reads and receives COUNT times through the crate, and prints the seconds of each, for bench/faces.py.

use jdoc::{Document, Error, Questions};
use std::time::Instant;

const KEYS: usize = 100;

fn write_all(document: &mut Document, count: usize) -> Result<(), Error> {
    for index in 0..count {
        document.set(&format!(r#"["k{}"]"#, index % KEYS), &index.to_string())?;
    }
    Ok(())
}

fn read_all(document: &mut Document, count: usize) -> Result<(), Error> {
    for index in 0..count {
        document.values(&format!(r#"["k{}"]"#, index % KEYS))?;
    }
    Ok(())
}

/// Receives everything that the source has, which may take several bundles, and returns the seconds of the receipts.
fn receive_all(document: &mut Document, source: &mut Document) -> Result<f64, Error> {
    let mut seconds = 0.0;
    loop {
        let bundle = source.answer(&document.hello()?)?;
        let began = Instant::now();
        let reply = document.receive(&bundle)?;
        seconds += began.elapsed().as_secs_f64();
        assert!(reply.ends_with("null,null]"), "{reply}");
        if !bundle.has_more {
            return Ok(seconds);
        }
    }
}

fn main() -> Result<(), Error> {
    let count = std::env::args().nth(1).and_then(|word| word.parse().ok()).expect("a count");
    let mut document = Document::new(1)?;
    let mut peer = Document::new(2)?;
    let began = Instant::now();
    write_all(&mut document, count)?;
    let wrote = began.elapsed().as_secs_f64();
    read_all(&mut document, count)?;
    let read = began.elapsed().as_secs_f64() - wrote;
    let received = receive_all(&mut peer, &mut document)?;
    assert_eq!(peer.status()?.length, count as u64);
    println!("{wrote:.6} {read:.6} {received:.6}");
    Ok(())
}
