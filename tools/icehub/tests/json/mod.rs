//! A small JSON parser, by RFC 8259: it takes what is JSON and refuses what is not.

use std::collections::BTreeMap;

#[derive(Clone, Debug, PartialEq)]
pub enum Json {
    Null,
    Bool(bool),
    /// Its digits, as they are.
    Number(String),
    Text(String),
    List(Vec<Json>),
    Object(BTreeMap<String, Json>),
}

impl Json {
    /// One value and nothing after it.
    pub fn parse(text: &str) -> Result<Json, String> {
        let mut parser = Parser { text, at: 0 };
        let json = parser.value()?;
        parser.space();
        if parser.at == text.len() {
            Ok(json)
        } else {
            Err(format!("more at {}", parser.at))
        }
    }

    pub fn get(&self, key: &str) -> &Json {
        match self {
            Json::Object(fields) => fields.get(key).unwrap_or(&Json::Null),
            _ => &Json::Null,
        }
    }

    pub fn text(&self) -> &str {
        match self {
            Json::Text(text) | Json::Number(text) => text,
            _ => "",
        }
    }

    pub fn list(&self) -> &[Json] {
        match self {
            Json::List(items) => items,
            _ => &[],
        }
    }
}

struct Parser<'a> {
    text: &'a str,
    at: usize,
}

impl Parser<'_> {
    fn peek(&self) -> Option<char> {
        self.text[self.at..].chars().next()
    }

    fn next(&mut self) -> Result<char, String> {
        let c = self.peek().ok_or("the end")?;
        self.at += c.len_utf8();
        Ok(c)
    }

    fn is_next(&mut self, word: &str) -> bool {
        let is = self.text[self.at..].starts_with(word);
        self.at += if is { word.len() } else { 0 };
        is
    }

    fn expect(&mut self, word: &str) -> Result<(), String> {
        if self.is_next(word) {
            Ok(())
        } else {
            Err(format!("no {word} at {}", self.at))
        }
    }

    fn space(&mut self) {
        while self.peek().is_some_and(|c| " \t\r\n".contains(c)) {
            self.at += 1;
        }
    }

    fn value(&mut self) -> Result<Json, String> {
        self.space();
        match self.peek() {
            Some('"') => Ok(Json::Text(self.string()?)),
            Some('[') => Ok(Json::List(self.items("[", "]", Parser::value)?)),
            Some('{') => {
                let fields = self.items("{", "}", |parser| {
                    parser.space();
                    let name = parser.string()?;
                    parser.space();
                    parser.expect(":")?;
                    Ok((name, parser.value()?))
                })?;
                let count = fields.len();
                let fields: BTreeMap<_, _> = fields.into_iter().collect();
                if fields.len() == count {
                    Ok(Json::Object(fields))
                } else {
                    Err(format!("a name twice before {}", self.at))
                }
            }
            Some('n') => self.expect("null").map(|()| Json::Null),
            Some('t') => self.expect("true").map(|()| Json::Bool(true)),
            Some('f') => self.expect("false").map(|()| Json::Bool(false)),
            _ => self.number(),
        }
    }

    fn items<T>(
        &mut self,
        open: &str,
        close: &str,
        item: impl Fn(&mut Self) -> Result<T, String>,
    ) -> Result<Vec<T>, String> {
        self.expect(open)?;
        let mut items = vec![];
        self.space();
        if self.is_next(close) {
            return Ok(items);
        }
        loop {
            items.push(item(self)?);
            self.space();
            if self.is_next(close) {
                return Ok(items);
            }
            self.expect(",")?;
        }
    }

    fn digits(&mut self) -> Result<(), String> {
        let start = self.at;
        while self.peek().is_some_and(|c| c.is_ascii_digit()) {
            self.at += 1;
        }
        if self.at > start {
            Ok(())
        } else {
            Err(format!("no digit at {start}"))
        }
    }

    fn number(&mut self) -> Result<Json, String> {
        let start = self.at;
        self.is_next("-");
        if !self.is_next("0") {
            self.digits()?;
        }
        if self.is_next(".") {
            self.digits()?;
        }
        if self.is_next("e") || self.is_next("E") {
            let _ = self.is_next("-") || self.is_next("+");
            self.digits()?;
        }
        Ok(Json::Number(self.text[start..self.at].to_string()))
    }

    fn string(&mut self) -> Result<String, String> {
        self.expect("\"")?;
        let mut text = String::new();
        loop {
            match self.next()? {
                '"' => return Ok(text),
                '\\' => text.push(self.escaped()?),
                c if c < ' ' => return Err(format!("a control character before {}", self.at)),
                c => text.push(c),
            }
        }
    }

    fn escaped(&mut self) -> Result<char, String> {
        Ok(match self.next()? {
            c @ ('"' | '\\' | '/') => c,
            'b' => '\u{8}',
            'f' => '\u{C}',
            'n' => '\n',
            'r' => '\r',
            't' => '\t',
            'u' => {
                let digits = self.text.get(self.at..self.at + 4).ok_or("the end")?;
                self.at += 4;
                let number = u32::from_str_radix(digits, 16).map_err(|error| error.to_string())?;
                char::from_u32(number).ok_or("half a pair")?
            }
            c => return Err(format!("\\{c}")),
        })
    }
}

#[test]
fn parser() {
    let good = r#" {"a" : [1, -0.5e+3, "x\u00e9\n\"", null, true, {}], "b": []} "#;
    let json = Json::parse(good).unwrap();
    assert_eq!(json.get("a").list()[1], Json::Number("-0.5e+3".to_string()));
    assert_eq!(json.get("a").list()[2], Json::Text("xé\n\"".to_string()));
    for bad in
        ["", "{", "[1,]", "{\"a\":1,}", "01", "1.", "+1", "NaN", "\"\n\"", "\"\\x\"", "{\"a\":1,\"a\":2}", "1 2", "nul"]
    {
        assert!(Json::parse(bad).is_err(), "{bad}");
    }
}
