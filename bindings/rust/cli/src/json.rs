//! What is printed with `--json`.

use std::fmt;

/// A value; an object keeps the order of its fields, so that the same answer prints the same text.
pub enum Json {
    Null,
    Bool(bool),
    Number(u64),
    /// A number as it was read.
    Written(String),
    Text(String),
    List(Vec<Json>),
    Object(Fields),
}

/// The fields of an object.
pub type Fields = Vec<(&'static str, Json)>;

impl From<bool> for Json {
    fn from(value: bool) -> Self {
        Json::Bool(value)
    }
}

impl From<u64> for Json {
    fn from(value: u64) -> Self {
        Json::Number(value)
    }
}

impl From<usize> for Json {
    fn from(value: usize) -> Self {
        Json::Number(value as u64)
    }
}

impl From<String> for Json {
    fn from(value: String) -> Self {
        Json::Text(value)
    }
}

impl From<&str> for Json {
    fn from(value: &str) -> Self {
        Json::Text(value.to_string())
    }
}

impl<T: Into<Json>> From<Option<T>> for Json {
    fn from(value: Option<T>) -> Self {
        value.map_or(Json::Null, Into::into)
    }
}

impl fmt::Display for Json {
    fn fmt(&self, f: &mut fmt::Formatter<'_>) -> fmt::Result {
        match self {
            Json::Null => f.write_str("null"),
            Json::Bool(value) => write!(f, "{value}"),
            // Many readers take numbers for floating point, which has 53 bits.
            Json::Number(value) if *value > 1 << 53 => write!(f, "\"{value}\""),
            Json::Number(value) => write!(f, "{value}"),
            Json::Written(text) => f.write_str(text),
            Json::Text(text) => quoted(f, text),
            Json::List(items) => {
                f.write_str("[")?;
                for (index, item) in items.iter().enumerate() {
                    f.write_str(if index == 0 { "" } else { "," })?;
                    item.fmt(f)?;
                }
                f.write_str("]")
            }
            Json::Object(fields) => {
                f.write_str("{")?;
                for (index, (name, value)) in fields.iter().enumerate() {
                    f.write_str(if index == 0 { "" } else { "," })?;
                    write!(f, "\"{name}\":{value}")?;
                }
                f.write_str("}")
            }
        }
    }
}

fn quoted(f: &mut fmt::Formatter<'_>, text: &str) -> fmt::Result {
    f.write_str("\"")?;
    for c in text.chars() {
        match c {
            '"' => f.write_str("\\\"")?,
            '\\' => f.write_str("\\\\")?,
            '\n' => f.write_str("\\n")?,
            c if c.is_control() => write!(f, "\\u{:04x}", u32::from(c))?,
            c => write!(f, "{c}")?,
        }
    }
    f.write_str("\"")
}

#[cfg(test)]
mod tests {
    use super::*;

    #[test]
    fn texts() {
        let fields = vec![
            ("a", Json::from("x\"\\\n\u{1}")),
            ("b", Json::List(vec![Json::Null, true.into()])),
        ];
        let text = "{\"a\":\"x\\\"\\\\\\n\\u0001\",\"b\":[null,true]}";
        assert_eq!(Json::Object(fields).to_string(), text);
        assert_eq!(Json::from(None::<u64>).to_string(), "null");
        assert_eq!(Json::from(Some(u64::MAX)).to_string(), "\"18446744073709551615\"");
        assert_eq!(Json::from(1_u64 << 53).to_string(), "9007199254740992");
        assert_eq!(Json::from((1_u64 << 53) + 1).to_string(), "\"9007199254740993\"");
        assert_eq!(Json::from("\u{7f}\u{9b}").to_string(), "\"\\u007f\\u009b\"");
    }
}
