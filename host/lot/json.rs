//! Answers as JSON: an object of named values, on one line.

use std::fmt::Write as _;

/// A value of an object.
pub enum Value {
    Number(u64),
    Text(String),
    Numbers(Vec<u64>),
    Texts(Vec<String>),
    Objects(Vec<Fields>),
}

pub type Fields = Vec<(&'static str, Value)>;

impl From<u64> for Value {
    fn from(number: u64) -> Value {
        Value::Number(number)
    }
}

impl From<&str> for Value {
    fn from(text: &str) -> Value {
        Value::Text(text.to_string())
    }
}

impl From<String> for Value {
    fn from(text: String) -> Value {
        Value::Text(text)
    }
}

/// An object of these fields.
pub fn object<'a>(fields: impl IntoIterator<Item = &'a (&'static str, Value)>) -> String {
    let field = |(name, value): &(&'static str, Value)| format!("{}:{}", quoted(name), put(value));
    format!("{{{}}}", fields.into_iter().map(field).collect::<Vec<_>>().join(","))
}

fn put(value: &Value) -> String {
    let array = |parts: Vec<String>| format!("[{}]", parts.join(","));
    match value {
        Value::Number(number) => number.to_string(),
        Value::Text(words) => quoted(words),
        Value::Numbers(numbers) => array(numbers.iter().map(u64::to_string).collect()),
        Value::Texts(texts) => array(texts.iter().map(|text| quoted(text)).collect()),
        Value::Objects(objects) => array(objects.iter().map(object).collect()),
    }
}

/// A text as JSON has it.
fn quoted(text: &str) -> String {
    let mut quoted = String::from("\"");
    for letter in text.chars() {
        match letter {
            '"' | '\\' => quoted.extend(['\\', letter]),
            letter if letter.is_control() => {
                let _ = write!(quoted, "\\u{:04x}", letter as u32);
            }
            letter => quoted.push(letter),
        }
    }
    quoted.push('"');
    quoted
}
