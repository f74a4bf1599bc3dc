//! JSON: what a document is written with, and what the lines of an answer hold.

use std::fmt;

/// A text as JSON writes it.
pub struct Text<'a>(pub &'a str);

impl fmt::Display for Text<'_> {
    fn fmt(&self, f: &mut fmt::Formatter<'_>) -> fmt::Result {
        f.write_str("\"")?;
        for letter in self.0.chars() {
            match letter {
                '"' | '\\' => write!(f, "\\{letter}")?,
                '\u{0}'..='\u{1f}' => write!(f, "\\u{:04x}", u32::from(letter))?,
                _ => write!(f, "{letter}")?,
            }
        }
        f.write_str("\"")
    }
}

/// A list of what displays as JSON.
pub struct List<'a, T>(pub &'a [T]);

impl<T: fmt::Display> fmt::Display for List<'_, T> {
    fn fmt(&self, f: &mut fmt::Formatter<'_>) -> fmt::Result {
        f.write_str("[")?;
        for (index, item) in self.0.iter().enumerate() {
            let comma = if index == 0 { "" } else { "," };
            write!(f, "{comma}{item}")?;
        }
        f.write_str("]")
    }
}

/// A list of texts.
pub fn texts<T: AsRef<str>>(items: impl IntoIterator<Item = T>) -> String {
    let items: Vec<String> = items.into_iter().map(|item| Text(item.as_ref()).to_string()).collect();
    List(&items).to_string()
}

/// A value of JSON, with the whole numbers that answers hold.
#[derive(Debug, Clone, PartialEq, Eq)]
pub enum Json {
    Null,
    Bool(bool),
    Number(i64),
    Text(String),
    List(Vec<Json>),
    Object(Vec<(String, Json)>),
}

impl Json {
    /// The value that a text is, and nothing after it.
    pub fn of(text: &str) -> Option<Json> {
        let mut reader = Reader { rest: text };
        let value = reader.value()?;
        reader.rest.trim_start().is_empty().then_some(value)
    }

    /// The member of an object.
    pub fn member(&self, name: &str) -> Option<&Json> {
        match self {
            Json::Object(members) => members.iter().find(|(each, _)| each == name).map(|(_, value)| value),
            _ => None,
        }
    }

    pub fn as_text(&self) -> Option<&str> {
        match self {
            Json::Text(text) => Some(text),
            _ => None,
        }
    }

    pub fn as_list(&self) -> Option<&[Json]> {
        match self {
            Json::List(items) => Some(items),
            _ => None,
        }
    }
}

/// Reads values off the front of a text.
struct Reader<'a> {
    rest: &'a str,
}

impl Reader<'_> {
    /// Takes this off the front, after blanks.
    fn takes(&mut self, word: &str) -> bool {
        self.rest = self.rest.trim_start();
        match self.rest.strip_prefix(word) {
            Some(rest) => {
                self.rest = rest;
                true
            }
            None => false,
        }
    }

    fn value(&mut self) -> Option<Json> {
        if self.takes("null") {
            Some(Json::Null)
        } else if self.takes("true") {
            Some(Json::Bool(true))
        } else if self.takes("false") {
            Some(Json::Bool(false))
        } else if self.takes("\"") {
            self.text().map(Json::Text)
        } else if self.takes("[") {
            self.items("]", Reader::value).map(Json::List)
        } else if self.takes("{") {
            self.items("}", Reader::pair).map(Json::Object)
        } else {
            self.number()
        }
    }

    /// What stands between commas, up to the end, which is taken too.
    fn items<T>(&mut self, end: &str, item: fn(&mut Self) -> Option<T>) -> Option<Vec<T>> {
        let mut items = Vec::new();
        if self.takes(end) {
            return Some(items);
        }
        loop {
            items.push(item(self)?);
            if self.takes(end) {
                return Some(items);
            }
            if !self.takes(",") {
                return None;
            }
        }
    }

    fn pair(&mut self) -> Option<(String, Json)> {
        if !self.takes("\"") {
            return None;
        }
        let name = self.text()?;
        if !self.takes(":") {
            return None;
        }
        Some((name, self.value()?))
    }

    fn number(&mut self) -> Option<Json> {
        let end = self.rest.find(|letter: char| letter != '-' && !letter.is_ascii_digit()).unwrap_or(self.rest.len());
        let (digits, rest) = self.rest.split_at(end);
        self.rest = rest;
        digits.parse().ok().map(Json::Number)
    }

    /// The rest of a text whose quote is taken.
    fn text(&mut self) -> Option<String> {
        let mut text = String::new();
        loop {
            let special = self.rest.find(['"', '\\'])?;
            text.push_str(&self.rest[..special]);
            let is_end = self.rest[special..].starts_with('"');
            self.rest = &self.rest[special + 1..];
            if is_end {
                return Some(text);
            }
            text.push(self.escaped()?);
        }
    }

    /// The letter that an escape stands for, of which the backslash is taken.
    fn escaped(&mut self) -> Option<char> {
        let mut letters = self.rest.chars();
        let letter = letters.next()?;
        self.rest = letters.as_str();
        Some(match letter {
            '"' | '\\' | '/' => letter,
            'b' => '\u{8}',
            'f' => '\u{c}',
            'n' => '\n',
            'r' => '\r',
            't' => '\t',
            'u' => self.unicode()?,
            _ => return None,
        })
    }

    /// The letter of the numbers after `\u`, which may be two that are parts of one.
    fn unicode(&mut self) -> Option<char> {
        let mut units = vec![self.unit()?];
        if (0xd800..0xdc00).contains(&units[0]) {
            if !self.rest.starts_with("\\u") {
                return None;
            }
            self.rest = &self.rest[2..];
            units.push(self.unit()?);
        }
        char::decode_utf16(units).next()?.ok()
    }

    fn unit(&mut self) -> Option<u16> {
        let digits = self.rest.get(..4).filter(|digits| digits.bytes().all(|byte| byte.is_ascii_hexdigit()))?;
        self.rest = &self.rest[4..];
        u16::from_str_radix(digits, 16).ok()
    }
}

#[cfg(test)]
mod tests {
    use super::{Json, Text};

    #[test]
    fn texts_come_back() {
        for text in ["", "it's", "\"\\/\u{0}\n\t\u{1f}\u{7f}é\u{1f600}\u{2028}"] {
            assert_eq!(Json::of(&Text(text).to_string()), Some(Json::Text(text.to_owned())));
        }
    }

    #[test]
    fn escapes_are_read() {
        assert_eq!(Json::of(r#""\u00e9\ud83d\ude00\/\b\f""#), Some(Json::Text("é\u{1f600}/\u{8}\u{c}".to_owned())));
        for text in [r#""\ud83d""#, r#""\ud83dx""#, r#""\x""#, r#""\u12""#, "\"", r#""\u+123""#] {
            assert_eq!(Json::of(text), None, "{text}");
        }
    }

    #[test]
    fn values_are_read() {
        let value = Json::of(r#" {"a": [1, -9223372036854775808, null], "b" : {}, "c": [] , "d": true}"#).expect("a value");
        let items = [Json::Number(1), Json::Number(i64::MIN), Json::Null];
        assert_eq!(value.member("a").and_then(Json::as_list), Some(&items[..]));
        assert_eq!(value.member("b"), Some(&Json::Object(Vec::new())));
        assert_eq!(value.member("d"), Some(&Json::Bool(true)));
        assert_eq!(value.member("e"), None);
        for text in ["", "{", "[1,]", "[1 2]", "{\"a\"}", "{\"a\":1,}", "1 1", "1.5", "-", "nul", "9223372036854775808"] {
            assert_eq!(Json::of(text), None, "{text}");
        }
    }
}
