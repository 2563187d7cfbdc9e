//! A small reader of JSON, for the indexes of the captures. It takes whole
//! numbers without a sign only, which is all that the indexes have.

use std::collections::BTreeMap;
use std::iter::Peekable;
use std::str::Chars;

#[derive(Clone, Debug, PartialEq)]
pub enum Json {
    Null,
    Boolean(bool),
    Number(u64),
    Text(String),
    List(Vec<Json>),
    Object(BTreeMap<String, Json>),
}

impl Json {
    /// The member of an object; a missing one fails the test.
    pub fn get(&self, name: &str) -> &Json {
        match self {
            Json::Object(members) => members.get(name).unwrap_or_else(|| panic!("no member {name:?}")),
            other => panic!("{other:?} has no member {name:?}"),
        }
    }

    pub fn number(&self) -> u64 {
        match self {
            Json::Number(number) => *number,
            other => panic!("{other:?} is no number"),
        }
    }

    pub fn text(&self) -> &str {
        match self {
            Json::Text(text) => text,
            other => panic!("{other:?} is no text"),
        }
    }

    pub fn list(&self) -> &[Json] {
        match self {
            Json::List(members) => members,
            other => panic!("{other:?} is no list"),
        }
    }
}

/// Reads one JSON value and nothing else.
pub fn parse(text: &str) -> Json {
    let mut reader = Reader { rest: text.chars().peekable() };
    let value = reader.value();
    assert_eq!(reader.next_mark(), None, "text behind the value");
    value
}

struct Reader<'a> {
    rest: Peekable<Chars<'a>>,
}

impl Reader<'_> {
    /// The next character that is no white space; it stays where it is.
    fn next_mark(&mut self) -> Option<char> {
        while self.rest.next_if(|c| c.is_ascii_whitespace()).is_some() {}
        self.rest.peek().copied()
    }

    fn expect(&mut self, wanted: char) {
        assert_eq!(self.next_mark(), Some(wanted));
        self.rest.next();
    }

    fn value(&mut self) -> Json {
        match self.next_mark() {
            Some('{') => self.object(),
            Some('[') => self.list(),
            Some('"') => Json::Text(self.string()),
            Some('0'..='9') => Json::Number(self.word().parse().expect("a whole number")),
            _ => match self.word().as_str() {
                "true" => Json::Boolean(true),
                "false" => Json::Boolean(false),
                "null" => Json::Null,
                other => panic!("unknown word {other:?}"),
            },
        }
    }

    fn word(&mut self) -> String {
        let in_word = |c: &char| c.is_ascii_alphanumeric() || "+-.".contains(*c);
        std::iter::from_fn(|| self.rest.next_if(in_word)).collect()
    }

    fn object(&mut self) -> Json {
        let mut members = BTreeMap::new();
        self.expect('{');
        while self.next_mark() != Some('}') {
            let name = self.string();
            self.expect(':');
            members.insert(name, self.value());
            self.separator('}');
        }
        self.expect('}');
        Json::Object(members)
    }

    fn list(&mut self) -> Json {
        let mut members = Vec::new();
        self.expect('[');
        while self.next_mark() != Some(']') {
            members.push(self.value());
            self.separator(']');
        }
        self.expect(']');
        Json::List(members)
    }

    /// A comma with something after it, or the closing mark.
    fn separator(&mut self, closing: char) {
        if self.next_mark() != Some(closing) {
            self.expect(',');
            assert_ne!(self.next_mark(), Some(closing), "nothing behind the comma");
        }
    }

    fn string(&mut self) -> String {
        let mut text = String::new();
        self.expect('"');
        loop {
            match self.rest.next().expect("the closing quote") {
                '"' => return text,
                '\\' => text.push(self.escaped()),
                plain => text.push(plain),
            }
        }
    }

    fn escaped(&mut self) -> char {
        match self.rest.next().expect("an escaped character") {
            'n' => '\n',
            't' => '\t',
            'r' => '\r',
            same @ ('"' | '\\' | '/') => same,
            other => panic!("escape {other:?} is not expected in the indexes"),
        }
    }
}
