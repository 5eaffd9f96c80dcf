//! What replies say.

use crate::Error;
use std::str::FromStr;

/// The id of an operation. That of an insert is the id of its item for good.
#[derive(Debug, Clone, Copy, PartialEq, Eq)]
pub struct Id {
    pub counter: u64,
    pub replica: u32,
}

/// The device's number, how many operations there are, and how many count as saved: those are in the lines.
#[derive(Debug, Clone, Copy, PartialEq, Eq)]
pub struct Status {
    pub number: u32,
    pub length: u64,
    pub saved: u64,
}

/// What comes after the word in a reply `["WORD",REST]`.
pub fn rest_of<'a>(reply: &'a str, word: &str) -> Result<&'a str, Error> {
    let parts = reply
        .strip_prefix(r#"[""#)
        .and_then(|it| it.strip_suffix(']'));
    let parts = parts.ok_or(Error::BadReply)?;
    let behind = |word: &str| parts.strip_prefix(word)?.strip_prefix(r#"","#);
    if let Some(rest) = behind(word) {
        return Ok(rest);
    }
    if behind("unsaved").is_some() {
        return Err(Error::Unsaved);
    }
    let code = behind("refused").ok_or(Error::BadReply)?;
    match code
        .strip_prefix(r#""E"#)
        .and_then(|it| it.split('"').next())
        .and_then(|it| it.parse().ok())
    {
        Some(1) => Err(Error::NoMemory),
        Some(code) => Err(Error::Refused(code)),
        None => Err(Error::BadReply),
    }
}

/// What comes after the word and the length in `["WORD",LENGTH,ANSWER]`.
pub fn answer_of(reply: &str, word: &str) -> Result<String, Error> {
    let (_length, answer) = rest_of(reply, word)?
        .split_once(',')
        .ok_or(Error::BadReply)?;
    Ok(answer.to_owned())
}

/// The id in `["made",[COUNTER,REPLICA],POSITION]`.
pub fn id_of(reply: &str) -> Result<Id, Error> {
    let mut numbers = rest_of(reply, "made")?
        .trim_start_matches('[')
        .split([',', ']']);
    Ok(Id {
        counter: next(&mut numbers)?,
        replica: next(&mut numbers)?,
    })
}

/// The numbers of `["status",NUMBER,LENGTH,SAVED]`.
pub fn status_of(reply: &str) -> Result<Status, Error> {
    let mut numbers = rest_of(reply, "status")?.split(',');
    Ok(Status {
        number: next(&mut numbers)?,
        length: next(&mut numbers)?,
        saved: next(&mut numbers)?,
    })
}

fn next<'a, T: FromStr>(numbers: &mut impl Iterator<Item = &'a str>) -> Result<T, Error> {
    numbers
        .next()
        .and_then(|it| it.parse().ok())
        .ok_or(Error::BadReply)
}

#[cfg(test)]
mod tests {
    use super::*;

    #[test]
    fn a_reply_is_taken_apart() {
        let id = Id {
            counter: 7,
            replica: 4294967295,
        };
        assert_eq!(id_of(r#"["made",[7,4294967295],0]"#), Ok(id));
        let status = Status {
            number: 1,
            length: 3,
            saved: 2,
        };
        assert_eq!(status_of(r#"["status",1,3,2]"#), Ok(status));
        assert_eq!(
            answer_of(r#"["reading",12,["a,b","c"]]"#, "reading"),
            Ok(r#"["a,b","c"]"#.to_owned())
        );
    }

    #[test]
    fn a_refusal_is_an_error() {
        assert_eq!(id_of(r#"["refused","E3",5]"#), Err(Error::Refused(3)));
        assert_eq!(id_of(r#"["refused","E22"]"#), Err(Error::Refused(22)));
        assert_eq!(id_of(r#"["refused","E1",5]"#), Err(Error::NoMemory));
        assert_eq!(id_of(r#"["unsaved",5,4]"#), Err(Error::Unsaved));
        assert_eq!(id_of(r#"["saved",5]"#), Err(Error::BadReply));
    }
}
