//! JSON, read by its own grammar: what the command prints is held against it.

use std::iter::Peekable;
use std::str::Chars;

/// A value.
#[derive(Clone, Debug, PartialEq)]
pub enum Value {
    Null,
    Bool(bool),
    Number(u64),
    Text(String),
    List(Vec<Value>),
    Object(Vec<(String, Value)>),
}

impl Value {
    /// A field of an object.
    pub fn field(&self, name: &str) -> &Value {
        let Value::Object(fields) = self else {
            panic!("{self:?} is no object");
        };
        let found = fields.iter().find(|(known, _)| known == name);
        &found.unwrap_or_else(|| panic!("no {name} in {self:?}")).1
    }

    /// The names of an object's fields.
    pub fn names(&self) -> Vec<&str> {
        match self {
            Value::Object(fields) => fields.iter().map(|(name, _)| name.as_str()).collect(),
            other => panic!("{other:?} is no object"),
        }
    }

    /// A text.
    pub fn text(&self) -> &str {
        match self {
            Value::Text(text) => text,
            other => panic!("{other:?} is no text"),
        }
    }

    /// A number.
    pub fn number(&self) -> u64 {
        match self {
            Value::Number(number) => *number,
            other => panic!("{other:?} is no number"),
        }
    }

    /// The numbers of a list.
    pub fn numbers(&self) -> Vec<u64> {
        match self {
            Value::List(values) => values.iter().map(Value::number).collect(),
            other => panic!("{other:?} is no list"),
        }
    }
}

fn text(rest: &mut Peekable<Chars>) -> String {
    assert_eq!(rest.next(), Some('"'));
    let mut text = String::new();
    loop {
        match rest.next().expect("a text ends") {
            '"' => return text,
            '\\' => match rest.next() {
                Some('u') => {
                    let code: String = rest.by_ref().take(4).collect();
                    let code = u32::from_str_radix(&code, 16).expect("a code");
                    text.push(char::from_u32(code).expect("a character"));
                }
                Some(c @ ('"' | '\\')) => text.push(c),
                other => panic!("{other:?} is not escaped"),
            },
            c => {
                assert!(!c.is_control(), "{c:?} in a text");
                text.push(c);
            }
        }
    }
}

/// What stands between brackets, with commas between.
fn items<T>(
    rest: &mut Peekable<Chars>,
    end: char,
    item: impl Fn(&mut Peekable<Chars>) -> T,
) -> Vec<T> {
    rest.next();
    let mut found = Vec::new();
    if rest.peek() == Some(&end) {
        rest.next();
        return found;
    }
    loop {
        found.push(item(rest));
        match rest.next() {
            Some(',') => (),
            last => {
                assert_eq!(last, Some(end));
                return found;
            }
        }
    }
}

fn value(rest: &mut Peekable<Chars>) -> Value {
    match rest.peek().expect("a value") {
        '"' => Value::Text(text(rest)),
        '[' => Value::List(items(rest, ']', value)),
        '{' => Value::Object(items(rest, '}', |rest| {
            let name = text(rest);
            assert_eq!(rest.next(), Some(':'));
            (name, value(rest))
        })),
        _ => {
            let mut word = String::new();
            while let Some(c) = rest.next_if(|c| c.is_ascii_alphanumeric()) {
                word.push(c);
            }
            match word.as_str() {
                "null" => Value::Null,
                "true" => Value::Bool(true),
                "false" => Value::Bool(false),
                digits => Value::Number(digits.parse().expect("a number")),
            }
        }
    }
}

/// The objects of lines.
pub fn objects(lines: &str) -> Vec<Value> {
    let object = |line: &str| {
        let mut rest = line.chars().peekable();
        let object = value(&mut rest);
        assert_eq!(rest.next(), None, "{line}");
        object
    };
    lines.lines().map(object).collect()
}
