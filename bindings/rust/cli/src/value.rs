//! JSON that is read, of a request.

/// A value; numbers are kept as they are written.
#[derive(Debug, Clone, PartialEq, Eq)]
pub enum Value {
    Null,
    Bool(bool),
    Number(String),
    Text(String),
    List(Vec<Value>),
    Object(Vec<(String, Value)>),
}

/// How deep values may lie in each other.
const DEPTH: usize = 16;

impl Value {
    /// The value that a text is, or what is wrong with it and at which byte, counted from 1.
    pub fn read(text: &str) -> Result<Self, String> {
        let mut reader = Reader { text, at: 0 };
        let value = reader.value(0).and_then(|value| {
            reader.blank();
            if reader.at == text.len() {
                Ok(value)
            } else {
                Err("something after the value")
            }
        });
        value.map_err(|what| format!("{what} at byte {}", reader.at + 1))
    }
}

struct Reader<'a> {
    text: &'a str,
    at: usize,
}

type Read<T> = Result<T, &'static str>;

impl Reader<'_> {
    fn next(&self) -> Option<u8> {
        self.text.as_bytes().get(self.at).copied()
    }

    fn blank(&mut self) {
        while matches!(self.next(), Some(b' ' | b'\t' | b'\r' | b'\n')) {
            self.at += 1;
        }
    }

    /// Takes a byte, after blanks.
    fn takes(&mut self, byte: u8) -> bool {
        self.blank();
        let found = self.next() == Some(byte);
        self.at += usize::from(found);
        found
    }

    fn value(&mut self, depth: usize) -> Read<Value> {
        self.blank();
        match self.next() {
            _ if depth > DEPTH => Err("too many values in each other"),
            Some(b'"') => self.text().map(Value::Text),
            Some(b'[') => {
                let item = |reader: &mut Self| reader.value(depth + 1);
                self.items(b']', item).map(Value::List)
            }
            Some(b'{') => {
                let field = |reader: &mut Self| {
                    reader.blank();
                    let name = reader.text()?;
                    if !reader.takes(b':') {
                        return Err("no colon after a name");
                    }
                    Ok((name, reader.value(depth + 1)?))
                };
                self.items(b'}', field).map(Value::Object)
            }
            Some(b'-' | b'0'..=b'9') => self.number(),
            Some(b't') => self.word("true", Value::Bool(true)),
            Some(b'f') => self.word("false", Value::Bool(false)),
            Some(b'n') => self.word("null", Value::Null),
            _ => Err("no JSON value"),
        }
    }

    fn word(&mut self, word: &str, value: Value) -> Read<Value> {
        if !self.text[self.at..].starts_with(word) {
            return Err("no JSON value");
        }
        self.at += word.len();
        Ok(value)
    }

    /// Items with commas between them, up to the byte that ends them.
    fn items<T>(&mut self, end: u8, item: impl Fn(&mut Self) -> Read<T>) -> Read<Vec<T>> {
        self.at += 1;
        let mut items = Vec::new();
        if self.takes(end) {
            return Ok(items);
        }
        loop {
            items.push(item(self)?);
            if self.takes(end) {
                return Ok(items);
            }
            if !self.takes(b',') {
                return Err("no comma between two values");
            }
        }
    }

    fn digits(&mut self) -> Read<()> {
        let start = self.at;
        while self.next().is_some_and(|byte| byte.is_ascii_digit()) {
            self.at += 1;
        }
        if self.at > start {
            Ok(())
        } else {
            Err("a number without digits")
        }
    }

    fn number(&mut self) -> Read<Value> {
        let start = self.at;
        self.at += usize::from(self.next() == Some(b'-'));
        let (first, zero) = (self.at, self.next() == Some(b'0'));
        self.digits()?;
        if zero && self.at > first + 1 {
            return Err("a number that starts with 0");
        }
        if self.next() == Some(b'.') {
            self.at += 1;
            self.digits()?;
        }
        if matches!(self.next(), Some(b'e' | b'E')) {
            self.at += 1;
            self.at += usize::from(matches!(self.next(), Some(b'+' | b'-')));
            self.digits()?;
        }
        Ok(Value::Number(self.text[start..self.at].to_string()))
    }

    fn text(&mut self) -> Read<String> {
        if self.next() != Some(b'"') {
            return Err("no text");
        }
        self.at += 1;
        let mut text = String::new();
        loop {
            let rest = &self.text[self.at..];
            let end = rest.find(['"', '\\']).ok_or("a text without its end")?;
            let plain = &rest[..end];
            if plain.contains(|c: char| c < ' ') {
                return Err("a control character in a text");
            }
            text.push_str(plain);
            self.at += end + 1;
            if rest.as_bytes()[end] == b'"' {
                return Ok(text);
            }
            text.push(self.escaped()?);
        }
    }

    /// What stands behind a backslash.
    fn escaped(&mut self) -> Read<char> {
        let escaped = match self.next() {
            Some(c @ (b'"' | b'\\' | b'/')) => char::from(c),
            Some(b'b') => '\u{8}',
            Some(b'f') => '\u{c}',
            Some(b'n') => '\n',
            Some(b'r') => '\r',
            Some(b't') => '\t',
            Some(b'u') => {
                self.at += 1;
                return self.unicode();
            }
            _ => return Err("a backslash before no such letter"),
        };
        self.at += 1;
        Ok(escaped)
    }

    fn unit(&mut self) -> Read<u16> {
        let digits = self.text.as_bytes().get(self.at..self.at + 4);
        let digits = digits.filter(|digits| digits.iter().all(u8::is_ascii_hexdigit));
        let digits = digits.and_then(|digits| std::str::from_utf8(digits).ok());
        let unit = digits.and_then(|digits| u16::from_str_radix(digits, 16).ok());
        let unit = unit.ok_or("no four hex digits after \\u")?;
        self.at += 4;
        Ok(unit)
    }

    /// A character of one unit, or of two that belong together.
    fn unicode(&mut self) -> Read<char> {
        let mut units = vec![self.unit()?];
        if (0xd800..0xdc00).contains(&units[0]) && self.text[self.at..].starts_with("\\u") {
            self.at += 2;
            units.push(self.unit()?);
        }
        let mut read = char::decode_utf16(units);
        match (read.next(), read.next()) {
            (Some(Ok(c)), None) => Ok(c),
            _ => Err("half a character"),
        }
    }
}

#[cfg(test)]
mod tests {
    use super::*;

    #[test]
    fn values() {
        let text = |text: &str| Value::Text(text.to_string());
        let number = |text: &str| Value::Number(text.to_string());
        let nested = {
            let list = Value::List(vec![number("1"), text("c")]);
            let inner = Value::Object(vec![("b".to_string(), list)]);
            Value::Object(vec![("a".to_string(), inner)])
        };
        for (written, value) in [
            (" null ", Value::Null),
            ("[]", Value::List(Vec::new())),
            ("[ true,false ]", Value::List(vec![Value::Bool(true), Value::Bool(false)])),
            ("-0.5e+3", number("-0.5e+3")),
            ("18446744073709551615", number("18446744073709551615")),
            (r#""a\"\\\/\b\f\n\r\t""#, text("a\"\\/\u{8}\u{c}\n\r\t")),
            (r#""\u00e9\uD83D\uDE00""#, text("\u{e9}\u{1f600}")),
            ("\"\u{e9}\u{1f600}\"", text("\u{e9}\u{1f600}")),
            (r#"{"a":{"b":[1,"c"]}}"#, nested),
        ] {
            assert_eq!(Value::read(written), Ok(value), "{written}");
        }
    }

    #[test]
    fn no_values() {
        for (written, what) in [
            ("", "no JSON value at byte 1"),
            ("{\"a\":1} x", "something after the value at byte 9"),
            ("[1 2]", "no comma between two values at byte 4"),
            ("[1,]", "no JSON value at byte 4"),
            ("{\"a\" 1}", "no colon after a name at byte 6"),
            ("{a:1}", "no text at byte 2"),
            ("\"abc", "a text without its end at byte 2"),
            ("\"\t\"", "a control character in a text at byte 2"),
            ("\"\\x\"", "a backslash before no such letter at byte 3"),
            ("01", "a number that starts with 0 at byte 3"),
            ("-", "a number without digits at byte 2"),
            ("nul", "no JSON value at byte 1"),
            ("\"\\ud83d\"", "half a character at byte 8"),
            ("\"\\ude00\"", "half a character at byte 8"),
            ("\"\\ud83d\\u0041\"", "half a character at byte 14"),
            ("\"\\u00g0\"", "no four hex digits after \\u at byte 4"),
            ("\"\\u12\"", "no four hex digits after \\u at byte 4"),
        ] {
            assert_eq!(Value::read(written), Err(what.to_string()));
        }
        assert!(Value::read(&"[".repeat(100_000)).is_err());
    }
}
