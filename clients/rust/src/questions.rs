//! The questions that both a document and its readers answer.

use crate::Error;
use crate::replies::answer_of;

/// Questions, which a document answers, and a reader too, from what it has taken in.
///
/// An expression is a list of steps as JSON: `[]` is the root, `["list",1]` the first item of the list at `list`, and `["list",[3,1]]` the
/// one with that id. Answers are JSON too.
pub trait Questions {
    /// The reply to a question or a glance, without its line feed.
    fn ask(&mut self, line: &str) -> Result<String, Error>;

    /// What is at the element, as human-readable JSON: to a depth of `depth` below it, and at most `elements` elements in all.
    fn glance(&mut self, expression: &str, depth: u64, elements: u64) -> Result<String, Error> {
        let reply = self.ask(&format!(r#"["glance",{expression},{depth},{elements}]"#))?;
        answer_of(&reply, "glance")
    }

    /// The same, as deep as a document can be.
    fn get(&mut self, expression: &str) -> Result<String, Error> {
        self.glance(expression, 32, 100_000)
    }

    /// The whole document, as human-readable JSON.
    fn to_json(&mut self) -> Result<String, Error> {
        self.get("[]")
    }

    /// The values of the register, each after the id of its write, `[[ID,VALUE],..]`. More than one is a conflict.
    fn values(&mut self, expression: &str) -> Result<String, Error> {
        reading(self, "values", expression)
    }

    /// The keys of the map, in ascending byte order.
    fn keys(&mut self, expression: &str) -> Result<String, Error> {
        reading(self, "keys", expression)
    }

    /// The ids of the items of the list, in list order.
    fn items(&mut self, expression: &str) -> Result<String, Error> {
        reading(self, "items", expression)
    }

    /// What keeps the element visible, `[[ID,TAG],..]`: each live write at it or beneath, and whether it makes a `"map"`, a `"list"` or a
    /// register, `"reg"`.
    fn conflicts(&mut self, expression: &str) -> Result<String, Error> {
        reading(self, "conflicts", expression)
    }
}

/// An expression with one more step.
pub(crate) fn stepped(expression: &str, step: &str) -> String {
    let expression = expression.trim();
    let steps = expression
        .strip_suffix(']')
        .unwrap_or(expression)
        .trim_end();
    let comma = if steps == "[" { "" } else { "," };
    format!("{steps}{comma}{step}]")
}

fn reading<Q: Questions + ?Sized>(
    of: &mut Q,
    word: &str,
    expression: &str,
) -> Result<String, Error> {
    let reply = of.ask(&format!(r#"["{word}",{expression}]"#))?;
    answer_of(&reply, "reading")
}
