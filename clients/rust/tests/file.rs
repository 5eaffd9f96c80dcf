//! A document in a file.

use jdoc::{Document, Error, Questions, Status};
use std::fs;
use std::path::{Path, PathBuf};

/// A folder that is removed with all that it has.
struct Folder(PathBuf);

impl Folder {
    fn new(name: &str) -> Folder {
        let folder = std::env::temp_dir().join(format!("jdoc-{name}-{}", std::process::id()));
        fs::create_dir(&folder).expect("a folder");
        Folder(folder)
    }

    fn file(&self, name: &str) -> PathBuf {
        self.0.join(name)
    }
}

impl Drop for Folder {
    fn drop(&mut self) {
        fs::remove_dir_all(&self.0).expect("the folder");
    }
}

fn why(path: &Path) -> Option<Error> {
    Document::open(path).err()
}

#[test]
fn a_document_goes_on_from_its_file() -> Result<(), Error> {
    let folder = Folder::new("goes-on");
    let path = folder.file("list.jdoc");
    let mut document = Document::open(&path)?;
    let number = document.status()?.number;
    document.set(r#"["a"]"#, "1")?;
    assert_eq!(document.lines()?, b"");
    drop(document);

    let mut document = Document::open(&path)?;
    let mut reader = document.reader(9)?;
    document.append(r#"["l"]"#, r#""eggs""#)?;
    document.feed()?;
    assert_eq!(
        (reader.follow()?, reader.get("[]")?),
        (2, r#"{"a":1,"l":["eggs"]}"#.to_owned())
    );
    document.save()?;
    let status = Status {
        number,
        length: 2,
        saved: 2,
    };
    assert_eq!(document.status()?, status);
    document.close()?;
    assert_eq!(
        fs::read(&path).map(|it| it.ends_with(b"\n")).ok(),
        Some(true)
    );
    assert_eq!(Document::open_as(&path, number)?.status()?, status);
    Ok(())
}

#[test]
fn documents_in_files_exchange() -> Result<(), Error> {
    let folder = Folder::new("exchange");
    let mut here = Document::open_as(folder.file("here"), 1)?;
    let mut there = Document::open_as(folder.file("there"), 2)?;
    here.set(r#"["a"]"#, "1")?;
    there.set(r#"["b"]"#, "2")?;
    here.sync(&mut there)?;
    drop((here, there));
    for name in ["here", "there"] {
        let mut document = Document::open(folder.file(name))?;
        assert_eq!(document.to_json()?, r#"{"a":1,"b":2}"#);
    }
    Ok(())
}

#[test]
fn what_is_not_opened_says_why() -> Result<(), Error> {
    let folder = Folder::new("why");
    let path = folder.file("list.jdoc");
    let mut document = Document::open_as(&path, 7)?;
    document.set(r#"["a"]"#, "1")?;
    assert_eq!(why(&path), Some(Error::Locked));
    drop(document);
    assert_eq!(
        Document::open_as(&path, 8).err(),
        Some(Error::WrongNumber { number: 7 })
    );
    assert_eq!(Document::open_as(&path, 0).err(), Some(Error::BadNumber));
    assert_eq!(why(&folder.0), Some(Error::NotRegular));
    assert_eq!(why(&folder.file("nowhere/file")), Some(Error::NotFound));
    assert_eq!(why(Path::new("a\0b")), Some(Error::BadPath));
    let mut bytes = fs::read(&path).expect("the file");
    bytes.extend(b"Dear Sir,\n");
    fs::write(&path, &bytes).expect("the file");
    assert_eq!(why(&path), Some(Error::Damaged { line: 2 }));
    assert_eq!(fs::read(&path).ok(), Some(bytes));
    Ok(())
}

#[test]
fn a_file_that_is_moved_is_gone() -> Result<(), Error> {
    let folder = Folder::new("moved");
    let (path, moved) = (folder.file("here"), folder.file("there"));
    let mut document = Document::open(&path)?;
    document.set(r#"["a"]"#, "1")?;
    fs::rename(&path, &moved).expect("it is moved");
    assert_eq!(document.set(r#"["a"]"#, "2").err(), Some(Error::Gone));
    assert_eq!(document.to_json().err(), Some(Error::Gone));
    assert_eq!(
        document.reader(1).err().map(|it| it.to_string()),
        Some(Error::Gone.to_string())
    );
    drop(document);
    assert_eq!(Document::open(&moved)?.to_json()?, r#"{"a":1}"#);
    Ok(())
}
