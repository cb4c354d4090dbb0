//! JSON, written as it comes, so that a long answer takes no memory.

use std::{
    fmt,
    io::{self, Write},
};

/// A value.
#[derive(Clone, Debug, PartialEq, Eq)]
pub enum Json {
    /// Nothing.
    Null,
    /// A truth value.
    Bool(bool),
    /// A whole number.
    Number(u64),
    /// A text.
    Text(String),
    /// Values in order.
    List(Vec<Json>),
    /// Values by name, in this order.
    Object(Vec<(&'static str, Json)>),
}

impl From<bool> for Json {
    fn from(value: bool) -> Json {
        Json::Bool(value)
    }
}

impl From<u32> for Json {
    fn from(value: u32) -> Json {
        Json::Number(value.into())
    }
}

impl From<usize> for Json {
    fn from(value: usize) -> Json {
        Json::Number(value as u64)
    }
}

impl From<&str> for Json {
    fn from(value: &str) -> Json {
        Json::Text(value.into())
    }
}

impl<T: Into<Json>> From<Option<T>> for Json {
    fn from(value: Option<T>) -> Json {
        value.map_or(Json::Null, Into::into)
    }
}

impl<T: Into<Json>> FromIterator<T> for Json {
    fn from_iter<I: IntoIterator<Item = T>>(values: I) -> Json {
        Json::List(values.into_iter().map(Into::into).collect())
    }
}

impl fmt::Display for Json {
    fn fmt(&self, f: &mut fmt::Formatter<'_>) -> fmt::Result {
        match self {
            Json::Null => f.write_str("null"),
            Json::Bool(value) => write!(f, "{value}"),
            Json::Number(value) => write!(f, "{value}"),
            Json::Text(value) => quote(f, value),
            Json::List(values) => {
                f.write_str("[")?;
                for (place, value) in values.iter().enumerate() {
                    write!(f, "{}{value}", if place > 0 { ", " } else { "" })?;
                }
                f.write_str("]")
            }
            Json::Object(members) => {
                f.write_str("{")?;
                for (place, (name, value)) in members.iter().enumerate() {
                    write!(f, "{}\"{name}\": {value}", if place > 0 { ", " } else { "" })?;
                }
                f.write_str("}")
            }
        }
    }
}

fn quote(f: &mut fmt::Formatter<'_>, value: &str) -> fmt::Result {
    f.write_str("\"")?;
    for letter in value.chars() {
        match letter {
            '"' | '\\' => write!(f, "\\{letter}")?,
            letter if letter < ' ' || letter == '\u{7f}' => write!(f, "\\u{:04x}", u32::from(letter))?,
            letter => write!(f, "{letter}")?,
        }
    }
    f.write_str("\"")
}

/// An object with a member a line.
pub struct Document<'a> {
    out: &'a mut dyn Write,
    members: usize,
}

impl<'a> Document<'a> {
    /// An object without members so far.
    pub fn new(out: &'a mut dyn Write) -> Document<'a> {
        Document { out, members: 0 }
    }

    fn name(&mut self, name: &str) -> io::Result<()> {
        self.members += 1;
        let before = if self.members > 1 { "," } else { "{" };
        write!(self.out, "{before}\n  \"{name}\": ")
    }

    /// A member.
    pub fn member(&mut self, name: &str, value: impl Into<Json>) -> io::Result<()> {
        self.name(name)?;
        write!(self.out, "{}", value.into())
    }

    /// A member that is a list, with a value a line.
    pub fn rows(&mut self, name: &str, values: impl IntoIterator<Item = Json>) -> io::Result<()> {
        self.name(name)?;
        let mut before = "[";
        for value in values {
            write!(self.out, "{before}\n    {value}")?;
            before = ",";
        }
        self.out.write_all(if before == "[" { b"[]" } else { b"\n  ]" })
    }

    /// The end of the object.
    pub fn end(self) -> io::Result<()> {
        self.out.write_all(if self.members > 0 { b"\n}\n" } else { b"{}\n" })
    }
}

#[cfg(test)]
mod tests {
    use super::*;

    #[test]
    fn documents_are_written() {
        let mut out = Vec::new();
        let mut document = Document::new(&mut out);
        let rows = [1u32, 2].map(|name| Json::Object(vec![("name", name.into()), ("x", Json::from(None::<u32>))]));
        document.member("a", "q\"\\\n\u{1b}\u{f6}").unwrap();
        document.member("b", true).unwrap();
        document.member("c", [1u32, 2].into_iter().collect::<Json>()).unwrap();
        document.rows("rows", rows).unwrap();
        document.rows("none", []).unwrap();
        document.end().unwrap();
        let expected =
            "{\n  \"a\": \"q\\\"\\\\\\u000a\\u001b\u{f6}\",\n  \"b\": true,\n  \"c\": [1, 2],\n  \"rows\": [\n    \
            {\"name\": 1, \"x\": null},\n    {\"name\": 2, \"x\": null}\n  ],\n  \"none\": []\n}\n";
        assert_eq!(String::from_utf8(out).unwrap(), expected);
    }
}
