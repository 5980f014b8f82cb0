//! As much of JSON as the recorded calls need: whole numbers, plain strings, lists and objects.

#[derive(Debug, PartialEq)]
pub enum Json {
    Number(u64),
    Text(String),
    List(Vec<Json>),
    Object(Vec<(String, Json)>),
}

impl Json {
    /// One value and nothing after it.
    pub fn parse(text: &str) -> Option<Json> {
        let mut rest = text;
        let json = value(&mut rest)?;
        rest.trim().is_empty().then_some(json)
    }

    pub fn get(&self, key: &str) -> Option<&Json> {
        match self {
            Json::Object(fields) => fields.iter().find(|(name, _)| name == key).map(|(_, json)| json),
            _ => None,
        }
    }

    pub fn number(&self, key: &str) -> Option<u32> {
        self.long(key)?.try_into().ok()
    }

    /// A number of up to 64 bits.
    pub fn long(&self, key: &str) -> Option<u64> {
        match self.get(key)? {
            Json::Number(number) => Some(*number),
            _ => None,
        }
    }

    pub fn text(&self, key: &str) -> Option<&str> {
        match self.get(key)? {
            Json::Text(text) => Some(text),
            _ => None,
        }
    }

    /// Bytes in hex.
    pub fn bytes(&self, key: &str) -> Option<Vec<u8>> {
        unhex(self.text(key)?)
    }
}

fn value(rest: &mut &str) -> Option<Json> {
    *rest = rest.trim_start();
    match rest.chars().next()? {
        '"' => text(rest).map(Json::Text),
        '[' => items(rest, ']', value).map(Json::List),
        '{' => items(rest, '}', |rest| {
            *rest = rest.trim_start();
            let name = text(rest)?;
            *rest = rest.trim_start().strip_prefix(':')?;
            Some((name, value(rest)?))
        })
        .map(Json::Object),
        _ => {
            let end = rest.find(|c: char| !c.is_ascii_digit()).unwrap_or(rest.len());
            let (digits, after) = rest.split_at(end);
            *rest = after;
            digits.parse().ok().map(Json::Number)
        }
    }
}

fn text(rest: &mut &str) -> Option<String> {
    let (text, after) = rest.strip_prefix('"')?.split_once('"')?;
    *rest = after;
    Some(text.to_string())
}

fn items<T>(rest: &mut &str, close: char, item: impl Fn(&mut &str) -> Option<T>) -> Option<Vec<T>> {
    let mut found = Vec::new();
    *rest = rest[1..].trim_start();
    while !rest.starts_with(close) {
        found.push(item(rest)?);
        *rest = rest.trim_start();
        match rest.strip_prefix(',') {
            Some(after) => *rest = after,
            None if rest.starts_with(close) => (),
            None => return None,
        }
    }
    *rest = &rest[1..];
    Some(found)
}

pub fn hex(bytes: &[u8]) -> String {
    let digit = |d: u8| char::from(b"0123456789abcdef"[d as usize]);
    bytes.iter().flat_map(|b| [digit(b >> 4), digit(b & 15)]).collect()
}

pub fn unhex(text: &str) -> Option<Vec<u8>> {
    let digit = |c: &u8| (*c as char).to_digit(16).map(|d| d as u8);
    let (pairs, rest) = text.as_bytes().as_chunks::<2>();
    let bytes = pairs.iter().map(|[high, low]| Some(digit(high)? << 4 | digit(low)?));
    if rest.is_empty() {
        bytes.collect()
    } else {
        None
    }
}
