//! Reads back what the tool writes: escaped lines, CSV and JSON. Written after the formats' own rules and the tool's help, not after its code.

/// The units of a text in a line.
pub fn unescape_line(text: &str) -> Vec<u16> {
    let mut units = Vec::new();
    let mut rest = text.chars();
    while let Some(character) = rest.next() {
        if character != '\\' {
            units.extend(character.encode_utf16(&mut [0; 2]).iter());
            continue;
        }
        match rest.next() {
            Some('\\') => units.push(0x5C),
            Some('t') => units.push(0x09),
            Some('n') => units.push(0x0A),
            Some('r') => units.push(0x0D),
            Some('u') => units.push(code(&mut rest)),
            other => panic!("an escape {other:?} in {text}"),
        }
    }
    units
}

/// The unit in `{85}`.
fn code(rest: &mut std::str::Chars<'_>) -> u16 {
    let (digits, after) = rest
        .as_str()
        .strip_prefix('{')
        .and_then(|rest| rest.split_once('}'))
        .expect("a code in braces");
    *rest = after.chars();
    u16::from_str_radix(digits, 16).expect("a code in hex")
}

/// The units of a text in a CSV field: an odd run of backslashes before `u{` ends in an escape, an even one is half as many.
pub fn unescape_field(text: &str) -> Vec<u16> {
    let mut units = Vec::new();
    let mut rest = text;
    while let Some(first) = rest.chars().next() {
        let after = rest.trim_start_matches('\\');
        let run = rest.len() - after.len();
        if run == 0 {
            units.extend(first.encode_utf16(&mut [0; 2]).iter());
            rest = &rest[first.len_utf8()..];
        } else if after.starts_with("u{") {
            units.extend(vec![0x5C; run / 2]);
            rest = after;
            if run % 2 == 1 {
                let mut characters = after[1..].chars();
                units.push(code(&mut characters));
                rest = characters.as_str();
            }
        } else {
            units.extend(vec![0x5C; run]);
            rest = after;
        }
    }
    units
}

/// The lines of a CSV file by RFC 4180, each with its fields.
pub fn csv(text: &str) -> Vec<Vec<String>> {
    let mut lines = Vec::new();
    let mut rest = text;
    while !rest.is_empty() {
        let mut line = Vec::new();
        loop {
            let (field, after) = csv_field(rest);
            line.push(field);
            if let Some(after) = after.strip_prefix(',') {
                rest = after;
                continue;
            }
            rest = after.strip_prefix("\r\n").expect("a line's end");
            break;
        }
        lines.push(line);
    }
    lines
}

fn csv_field(text: &str) -> (String, &str) {
    let Some(mut rest) = text.strip_prefix('"') else {
        let end = text.find([',', '\r', '\n']).expect("a field's end");
        assert!(!text[..end].contains('"'), "a quote in a plain field");
        return (text[..end].to_string(), &text[end..]);
    };
    let mut field = String::new();
    loop {
        let (part, after) = rest.split_once('"').expect("a closing quote");
        field.push_str(part);
        match after.strip_prefix('"') {
            Some(after) => {
                field.push('"');
                rest = after;
            }
            None => return (field, after),
        }
    }
}

/// A JSON value. A number is its text, a string its units.
#[derive(Clone, Debug, PartialEq)]
pub enum Json {
    Null,
    Truth(bool),
    Number(String),
    Text(Vec<u16>),
    List(Vec<Json>),
    Object(Vec<(String, Json)>),
}

impl Json {
    pub fn get(&self, name: &str) -> &Json {
        let Json::Object(members) = self else {
            panic!("no object: {self:?}")
        };
        let mut named = members.iter().filter(|member| member.0 == name);
        let (Some(member), None) = (named.next(), named.next()) else {
            panic!("not one member {name} in {self:?}")
        };
        &member.1
    }

    pub fn names(&self) -> Vec<&str> {
        match self {
            Json::Object(members) => members.iter().map(|member| &member.0[..]).collect(),
            _ => panic!("no object: {self:?}"),
        }
    }

    pub fn list(&self) -> &[Json] {
        match self {
            Json::List(list) => list,
            _ => panic!("no list: {self:?}"),
        }
    }

    pub fn number(&self) -> f64 {
        match self {
            Json::Number(text) => text.parse().expect("a number"),
            _ => panic!("no number: {self:?}"),
        }
    }

    pub fn units(&self) -> &[u16] {
        match self {
            Json::Text(units) => units,
            _ => panic!("no text: {self:?}"),
        }
    }

    pub fn text(&self) -> String {
        String::from_utf16(self.units()).expect("text")
    }
}

/// The one JSON value of a text.
pub fn json(text: &str) -> Json {
    let mut rest = text;
    let value = json_value(&mut rest);
    assert_eq!(rest.trim_start(), "", "after the value");
    value
}

fn skip(rest: &mut &str, token: &str) -> bool {
    *rest = rest.trim_start_matches([' ', '\t', '\n', '\r']);
    match rest.strip_prefix(token) {
        Some(after) => {
            *rest = after;
            true
        }
        None => false,
    }
}

fn json_value(rest: &mut &str) -> Json {
    if skip(rest, "null") {
        Json::Null
    } else if skip(rest, "true") {
        Json::Truth(true)
    } else if skip(rest, "false") {
        Json::Truth(false)
    } else if skip(rest, "[") {
        Json::List(json_items(rest, "]", json_value))
    } else if skip(rest, "{") {
        Json::Object(json_items(rest, "}", |rest| {
            assert!(skip(rest, "\""), "a name");
            let name = String::from_utf16(&json_string(rest)).expect("a name");
            assert!(skip(rest, ":"), "a colon");
            (name, json_value(rest))
        }))
    } else if skip(rest, "\"") {
        Json::Text(json_string(rest))
    } else {
        Json::Number(json_number(rest))
    }
}

fn json_items<T>(rest: &mut &str, close: &str, item: impl Fn(&mut &str) -> T) -> Vec<T> {
    let mut items = Vec::new();
    if skip(rest, close) {
        return items;
    }
    loop {
        items.push(item(rest));
        if skip(rest, close) {
            return items;
        }
        assert!(skip(rest, ","), "a comma before {rest}");
    }
}

fn json_number(rest: &mut &str) -> String {
    let end = rest
        .find(|character: char| !"+-.eE0123456789".contains(character))
        .unwrap_or(rest.len());
    let (number, after) = rest.split_at(end);
    let digits = number.strip_prefix('-').unwrap_or(number);
    assert!(
        digits.starts_with(|first: char| first.is_ascii_digit()),
        "a number: {number}"
    );
    assert!(
        !digits.starts_with('0') || !digits[1..].starts_with(|next: char| next.is_ascii_digit()),
        "a zero in front: {number}"
    );
    assert!(!number.contains(".e") && !number.ends_with('.'), "{number}");
    *rest = after;
    number.to_string()
}

fn json_string(rest: &mut &str) -> Vec<u16> {
    let mut units = Vec::new();
    let mut characters = rest.chars();
    loop {
        match characters.next().expect("a closing quote") {
            '"' => break,
            '\\' => units.push(match characters.next() {
                Some('"') => 0x22,
                Some('\\') => 0x5C,
                Some('/') => 0x2F,
                Some('b') => 0x08,
                Some('f') => 0x0C,
                Some('n') => 0x0A,
                Some('r') => 0x0D,
                Some('t') => 0x09,
                Some('u') => {
                    let digits: String = characters.by_ref().take(4).collect();
                    assert_eq!(digits.len(), 4);
                    u16::from_str_radix(&digits, 16).expect("four hex digits")
                }
                other => panic!("an escape {other:?}"),
            }),
            plain => {
                assert!(plain >= ' ', "a control character in a string");
                units.extend(plain.encode_utf16(&mut [0; 2]).iter());
            }
        }
    }
    *rest = characters.as_str();
    units
}
