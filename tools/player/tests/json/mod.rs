//! JSON, read as a browser would. Fails on what is none.
#![allow(dead_code)]

use std::collections::BTreeMap;
use std::iter::Peekable;
use std::str::Chars;

#[derive(Clone, Debug, PartialEq)]
pub enum Json {
    Null,
    Bool(bool),
    Number(f64),
    Text(String),
    List(Vec<Json>),
    Object(BTreeMap<String, Json>),
}

pub fn read(text: &str) -> Json {
    let mut rest = text.chars().peekable();
    let json = value(&mut rest);
    assert_eq!(rest.next(), None, "nothing stands behind");
    json
}

impl Json {
    pub fn field(&self, name: &str) -> &Json {
        match self {
            Json::Object(fields) => &fields[name],
            other => panic!("{other:?} has no fields"),
        }
    }

    pub fn object(&self) -> &BTreeMap<String, Json> {
        match self {
            Json::Object(fields) => fields,
            other => panic!("{other:?} is no object"),
        }
    }

    pub fn list(&self) -> &[Json] {
        match self {
            Json::List(items) => items,
            other => panic!("{other:?} is no list"),
        }
    }

    pub fn text(&self) -> &str {
        match self {
            Json::Text(text) => text,
            other => panic!("{other:?} is no text"),
        }
    }
}

type Rest<'t> = Peekable<Chars<'t>>;

fn value(rest: &mut Rest) -> Json {
    match rest.peek() {
        Some('"') => Json::Text(text(rest)),
        Some('[') => Json::List(items(rest, '[', ']', value)),
        Some('{') => Json::Object(items(rest, '{', '}', field).into_iter().collect()),
        _ => match word(rest).as_str() {
            "null" => Json::Null,
            "true" => Json::Bool(true),
            "false" => Json::Bool(false),
            number => Json::Number(number.parse().expect("a number")),
        },
    }
}

fn take(rest: &mut Rest, due: char) {
    assert_eq!(rest.next(), Some(due));
}

fn word(rest: &mut Rest) -> String {
    let mut word = String::new();
    while let Some(c) = rest.next_if(|c| c.is_ascii_alphanumeric() || "+-.".contains(*c)) {
        word.push(c);
    }
    word
}

fn items<T>(rest: &mut Rest, open: char, close: char, item: fn(&mut Rest) -> T) -> Vec<T> {
    let mut items = Vec::new();
    take(rest, open);
    while rest.peek() != Some(&close) {
        if !items.is_empty() {
            take(rest, ',');
        }
        items.push(item(rest));
    }
    take(rest, close);
    items
}

fn field(rest: &mut Rest) -> (String, Json) {
    let name = text(rest);
    take(rest, ':');
    (name, value(rest))
}

fn text(rest: &mut Rest) -> String {
    let mut text = String::new();
    take(rest, '"');
    loop {
        match rest.next().expect("a text ends") {
            '"' => return text,
            '\\' => match rest.next() {
                Some('u') => {
                    let digits: String = rest.by_ref().take(4).collect();
                    let code = u32::from_str_radix(&digits, 16).expect("four digits");
                    text.push(char::from_u32(code).expect("a character"));
                }
                Some(c @ ('"' | '\\')) => text.push(c),
                other => panic!("{other:?} is not escaped"),
            },
            c => {
                assert!(c >= ' ', "control characters are escaped");
                text.push(c);
            }
        }
    }
}
