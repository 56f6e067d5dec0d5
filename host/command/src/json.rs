//! JSON, as it is written.

use std::fmt::Write;

/// A string with its quotation marks. Control characters are written as numbers.
pub fn string(text: &str) -> String {
    let mut json = String::from("\"");
    for c in text.chars() {
        match c {
            '"' | '\\' => json.extend(['\\', c]),
            _ if crate::text::is_control(c) => {
                let mut units = [0; 2];
                for unit in c.encode_utf16(&mut units) {
                    let _ = write!(json, "\\u{unit:04x}");
                }
            }
            _ => json.push(c),
        }
    }
    json + "\""
}

/// An object with these members, in their order. A value is JSON already.
pub fn object<K: AsRef<str>>(members: impl IntoIterator<Item = (K, String)>) -> String {
    let member = |(name, value): (K, String)| format!("{}:{value}", string(name.as_ref()));
    format!("{{{}}}", joined(members.into_iter().map(member)))
}

/// An array of these values, which are JSON already.
pub fn array(values: impl IntoIterator<Item = String>) -> String {
    format!("[{}]", joined(values))
}

fn joined(values: impl IntoIterator<Item = String>) -> String {
    values.into_iter().collect::<Vec<_>>().join(",")
}

#[cfg(test)]
mod tests {
    use super::*;

    #[test]
    fn strings_and_objects() {
        assert_eq!(string("a \"b\" \\ é"), r#""a \"b\" \\ é""#);
        assert_eq!(string("\u{1b}\n\u{feff}"), r#""\u001b\u000a\ufeff""#);
        let object = object([("a", "1".to_string()), ("b", array(["2".to_string(), "null".to_string()]))]);
        assert_eq!(object, r#"{"a":1,"b":[2,null]}"#);
    }
}
