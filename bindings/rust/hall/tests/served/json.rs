//! JSON, read as strictly as its grammar is, so that what the server writes by hand is tested.

use std::str::Chars;

#[derive(Clone, Debug, PartialEq)]
pub enum Value {
    Null,
    Bool(bool),
    Number(f64),
    Text(String),
    List(Vec<Value>),
    Object(Vec<(String, Value)>),
}

impl Value {
    /// # Panics
    ///
    /// If the text is not JSON.
    pub fn parse(text: &str) -> Value {
        let mut rest = text.chars();
        let value = value(&mut rest);
        assert_eq!(rest.as_str(), "", "behind the value");
        value
    }

    /// The value under names that are parted by dots.
    pub fn at(&self, names: &str) -> &Value {
        names.split('.').fold(self, |value, name| match value {
            Value::Object(fields) => {
                let field = fields.iter().find(|(known, _)| known == name);
                &field.unwrap_or_else(|| panic!("no {name} of {names}")).1
            }
            other => panic!("{name} of {other:?}"),
        })
    }

    pub fn number(&self, names: &str) -> f64 {
        match self.at(names) {
            Value::Number(number) => *number,
            other => panic!("{names} is {other:?}"),
        }
    }

    pub fn text(&self, names: &str) -> &str {
        match self.at(names) {
            Value::Text(text) => text,
            other => panic!("{names} is {other:?}"),
        }
    }

    pub fn list(&self, names: &str) -> &[Value] {
        match self.at(names) {
            Value::List(values) => values,
            other => panic!("{names} is {other:?}"),
        }
    }

    pub fn is(&self, names: &str) -> bool {
        match self.at(names) {
            Value::Bool(value) => *value,
            other => panic!("{names} is {other:?}"),
        }
    }
}

fn value(rest: &mut Chars) -> Value {
    let words = [("null", Value::Null), ("true", Value::Bool(true)), ("false", Value::Bool(false))];
    for (word, value) in words {
        if let Some(after) = rest.as_str().strip_prefix(word) {
            *rest = after.chars();
            return value;
        }
    }
    match rest.as_str().chars().next() {
        Some('"') => Value::Text(text(rest)),
        Some('[') => Value::List(members(rest, ']', value)),
        Some('{') => Value::Object(members(rest, '}', |rest| {
            let name = text(rest);
            assert_eq!(rest.next(), Some(':'), "behind a name");
            (name, value(rest))
        })),
        _ => number(rest),
    }
}

/// What stands between brackets, parted by commas.
fn members<T>(rest: &mut Chars, end: char, member: impl Fn(&mut Chars) -> T) -> Vec<T> {
    rest.next();
    if let Some(after) = rest.as_str().strip_prefix(end) {
        *rest = after.chars();
        return Vec::new();
    }
    let mut all = Vec::new();
    loop {
        all.push(member(rest));
        match rest.next() {
            Some(',') => {}
            Some(one) if one == end => return all,
            other => panic!("{other:?} behind a member"),
        }
    }
}

fn text(rest: &mut Chars) -> String {
    assert_eq!(rest.next(), Some('"'), "a text begins");
    let mut text = String::new();
    loop {
        match rest.next().expect("a text ends") {
            '"' => return text,
            '\\' => text.push(match rest.next().expect("an escape") {
                'u' => {
                    let digits: String = rest.take(4).collect();
                    let code = u32::from_str_radix(&digits, 16).expect("four digits");
                    char::from_u32(code).expect("a character")
                }
                one @ ('"' | '\\' | '/') => one,
                other => panic!("escape {other}"),
            }),
            one => {
                assert!(one >= ' ', "a control in a text");
                text.push(one);
            }
        }
    }
}

fn number(rest: &mut Chars) -> Value {
    let text = rest.as_str();
    let end = text.find(|one: char| !"+-.eE0123456789".contains(one)).unwrap_or(text.len());
    let (number, after) = text.split_at(end);
    let digits = number.strip_prefix('-').unwrap_or(number);
    let leads =
        digits.starts_with('0') && digits[1..].starts_with(|one: char| one.is_ascii_digit());
    assert!(digits.starts_with(|one: char| one.is_ascii_digit()) && !leads, "number {number:?}");
    assert!(!digits.ends_with('.'), "number {number:?}");
    *rest = after.chars();
    Value::Number(number.parse().expect("a number"))
}
