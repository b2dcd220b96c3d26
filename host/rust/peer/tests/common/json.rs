//! A reader for the little JSON that the vectors use: one object of texts, numbers and lists a line.

use std::collections::HashMap;

#[derive(Clone, Debug, PartialEq)]
pub enum Json {
    Text(String),
    Number(i64),
    List(Vec<Json>),
}

pub struct Reader<'a> {
    rest: &'a str,
}

/// The object that a line holds.
pub fn object(line: &str) -> HashMap<String, Json> {
    let mut reader = Reader { rest: line };
    let mut object = HashMap::new();
    reader.expect('{');
    while !reader.take('}') {
        let key = reader.text();
        reader.expect(':');
        object.insert(key, reader.value());
        reader.take(',');
    }
    object
}

impl Reader<'_> {
    fn take(&mut self, sign: char) -> bool {
        self.rest = self.rest.trim_start();
        match self.rest.strip_prefix(sign) {
            Some(rest) => {
                self.rest = rest;
                true
            }
            None => false,
        }
    }

    fn expect(&mut self, sign: char) {
        assert!(self.take(sign), "{sign} expected at {:.40}", self.rest);
    }

    fn value(&mut self) -> Json {
        self.rest = self.rest.trim_start();
        match self.rest.chars().next() {
            Some('"') => Json::Text(self.text()),
            Some('[') => Json::List(self.list()),
            _ => Json::Number(self.number()),
        }
    }

    fn list(&mut self) -> Vec<Json> {
        let mut list = Vec::new();
        self.expect('[');
        while !self.take(']') {
            list.push(self.value());
            self.take(',');
        }
        list
    }

    fn number(&mut self) -> i64 {
        self.rest = self.rest.trim_start();
        let end = self.rest.find([',', ']', '}', ' ']).unwrap_or(self.rest.len());
        let (digits, rest) = self.rest.split_at(end);
        self.rest = rest;
        digits.parse().expect("a number")
    }

    fn text(&mut self) -> String {
        self.expect('"');
        let mut text = String::new();
        loop {
            let sign = self.sign();
            match sign {
                '"' => return text,
                '\\' => text.push(self.escape()),
                _ => text.push(sign),
            }
        }
    }

    fn sign(&mut self) -> char {
        let sign = self.rest.chars().next().expect("a closed string");
        self.rest = &self.rest[sign.len_utf8()..];
        sign
    }

    fn escape(&mut self) -> char {
        match self.sign() {
            'n' => '\n',
            't' => '\t',
            'r' => '\r',
            'u' => {
                let code = u32::from_str_radix(&self.rest[..4], 16).expect("four digits");
                self.rest = &self.rest[4..];
                char::from_u32(code).expect("a character")
            }
            other => other,
        }
    }
}
