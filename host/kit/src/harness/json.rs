//! A line of JSON as the command writes it, read strictly: anything else fails the test.

use std::iter::Peekable;
use std::str::Chars;

#[derive(Clone, Debug, PartialEq)]
pub enum Json {
    Null,
    Bool(bool),
    Number(i64),
    Text(String),
    Object(Vec<(String, Json)>),
}

impl Json {
    /// A field of an object.
    pub fn get(&self, name: &str) -> &Json {
        let Json::Object(fields) = self else { panic!("{self:?} is no object") };
        let found: Vec<&Json> = fields.iter().filter(|(field, _)| field == name).map(|(_, value)| value).collect();
        assert_eq!(found.len(), 1, "{name} in {self:?}");
        found[0]
    }

    pub fn text(&self, name: &str) -> &str {
        match self.get(name) {
            Json::Text(text) => text,
            other => panic!("{name} is {other:?}"),
        }
    }

    pub fn names(&self) -> Vec<&str> {
        let Json::Object(fields) = self else { panic!("{self:?} is no object") };
        fields.iter().map(|(name, _)| name.as_str()).collect()
    }
}

/// One line, which is one object.
pub fn parse(line: &str) -> Json {
    let mut rest = line.chars().peekable();
    let object = value(&mut rest);
    assert!(matches!(object, Json::Object(_)) && rest.next().is_none(), "{line}");
    object
}

fn value(rest: &mut Peekable<Chars>) -> Json {
    match rest.peek() {
        Some('{') => object(rest),
        Some('"') => Json::Text(text(rest)),
        _ => word(rest),
    }
}

fn object(rest: &mut Peekable<Chars>) -> Json {
    let mut fields = Vec::new();
    let mut before = rest.next();
    while before != Some('}') {
        let name = text(rest);
        assert_eq!(rest.next(), Some(':'));
        fields.push((name, value(rest)));
        before = rest.next();
        assert!(matches!(before, Some(',' | '}')), "{before:?}");
    }
    Json::Object(fields)
}

fn word(rest: &mut Peekable<Chars>) -> Json {
    let mut word = String::new();
    while let Some(c) = rest.next_if(|c| c.is_ascii_alphanumeric() || *c == '-') {
        word.push(c);
    }
    match word.as_str() {
        "null" => Json::Null,
        "true" => Json::Bool(true),
        "false" => Json::Bool(false),
        number => Json::Number(number.parse().unwrap()),
    }
}

fn text(rest: &mut Peekable<Chars>) -> String {
    assert_eq!(rest.next(), Some('"'));
    let mut units: Vec<u16> = Vec::new();
    loop {
        match rest.next().unwrap() {
            '"' => return String::from_utf16(&units).unwrap(),
            '\\' => units.push(escaped(rest)),
            c => {
                assert!(c >= ' ', "{c:?}");
                units.extend(c.encode_utf16(&mut [0; 2]).iter());
            }
        }
    }
}

/// What follows a backslash.
fn escaped(rest: &mut Peekable<Chars>) -> u16 {
    match rest.next().unwrap() {
        'u' => {
            let digits: String = rest.by_ref().take(4).collect();
            u16::from_str_radix(&digits, 16).unwrap()
        }
        c @ ('"' | '\\') => c as u16,
        other => panic!("\\{other}"),
    }
}
