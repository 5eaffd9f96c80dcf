//! Lines as JSON strings.

/// A line as a JSON string.
pub fn quoted(line: &str) -> String {
    let mut text = String::with_capacity(line.len() + 2);
    text.push('"');
    for letter in line.chars() {
        match letter {
            '"' | '\\' => text.extend(['\\', letter]),
            '\n' => text.push_str("\\n"),
            control if control < ' ' => text.push_str(&format!("\\u{:04x}", u32::from(control))),
            other => text.push(other),
        }
    }
    text.push('"');
    text
}

/// The string within the reply `["bundle",TEXT,MORE,BEYOND]`, as it is written there.
pub fn bundle_text(reply: &str) -> Option<&str> {
    let rest = reply.strip_prefix(r#"["bundle","#)?;
    let mut is_escaped = false;
    for (index, byte) in rest.bytes().enumerate().skip(1) {
        match byte {
            _ if is_escaped => is_escaped = false,
            b'\\' => is_escaped = true,
            b'"' => return rest.get(..=index),
            _ => {}
        }
    }
    None
}

#[cfg(test)]
mod tests {
    use super::*;

    #[test]
    fn lines_are_quoted() {
        assert_eq!(
            quoted("[\"hello\",[[1,2]]]\n"),
            r#""[\"hello\",[[1,2]]]\n""#
        );
        assert_eq!(quoted("a\\b\u{1}"), r#""a\\b\u0001""#);
    }

    #[test]
    fn the_text_of_a_bundle_ends_at_its_quote() {
        assert_eq!(bundle_text(r#"["bundle","",false,true]"#), Some(r#""""#));
        assert_eq!(
            bundle_text(r#"["bundle","a\"\\",false,false]"#),
            Some(r#""a\"\\""#)
        );
        assert_eq!(bundle_text(r#"["refused","E22"]"#), None);
        assert_eq!(bundle_text(r#"["bundle","#), None);
    }
}
