//! A strict reader of JSON.

use std::collections::BTreeSet;

#[derive(Debug, Clone, PartialEq)]
pub enum Json {
    Null,
    Truth(bool),
    Number(f64),
    Text(String),
    List(Vec<Json>),
    Object(Vec<(String, Json)>),
}

impl Json {
    /// The value that the text is, with nothing around it but white space; or the offset where it is no JSON.
    pub fn parse(text: &str) -> Result<Json, usize> {
        let mut reader = Reader { bytes: text.as_bytes(), at: 0 };
        let value = reader.value()?;
        reader.space();
        if reader.at < reader.bytes.len() { Err(reader.at) } else { Ok(value) }
    }

    /// The value of a key.
    pub fn get(&self, key: &str) -> &Json {
        let Json::Object(members) = self else { panic!("no object: {self:?}") };
        &members.iter().find(|(name, _)| name == key).unwrap_or_else(|| panic!("no {key} in {self:?}")).1
    }

    pub fn number(&self, key: &str) -> u64 {
        let Json::Number(number) = self.get(key) else { panic!("{key} is no number: {self:?}") };
        *number as u64
    }

    pub fn text(&self, key: &str) -> &str {
        let Json::Text(text) = self.get(key) else { panic!("{key} is no text: {self:?}") };
        text
    }

    pub fn list(&self, key: &str) -> &[Json] {
        let Json::List(values) = self.get(key) else { panic!("{key} is no list: {self:?}") };
        values
    }

    /// The keys of an object, in order.
    pub fn keys(&self) -> Vec<&str> {
        let Json::Object(members) = self else { panic!("no object: {self:?}") };
        members.iter().map(|(key, _)| key.as_str()).collect()
    }

    /// All keys in it, at any depth.
    pub fn all_keys(&self, keys: &mut BTreeSet<String>) {
        match self {
            Json::List(values) => values.iter().for_each(|value| value.all_keys(keys)),
            Json::Object(members) => members.iter().for_each(|(key, value)| {
                keys.insert(key.clone());
                value.all_keys(keys);
            }),
            _ => {}
        }
    }
}

struct Reader<'a> {
    bytes: &'a [u8],
    at: usize,
}

impl Reader<'_> {
    fn space(&mut self) {
        while self.bytes.get(self.at).is_some_and(|byte| b" \t\r\n".contains(byte)) {
            self.at += 1;
        }
    }

    fn next(&mut self) -> Result<u8, usize> {
        let byte = self.bytes.get(self.at).copied().ok_or(self.at)?;
        self.at += 1;
        Ok(byte)
    }

    fn expect(&mut self, word: &str) -> Result<(), usize> {
        if !self.bytes[self.at..].starts_with(word.as_bytes()) {
            return Err(self.at);
        }
        self.at += word.len();
        Ok(())
    }

    fn value(&mut self) -> Result<Json, usize> {
        self.space();
        match self.bytes.get(self.at) {
            Some(b'n') => self.expect("null").map(|()| Json::Null),
            Some(b't') => self.expect("true").map(|()| Json::Truth(true)),
            Some(b'f') => self.expect("false").map(|()| Json::Truth(false)),
            Some(b'"') => self.string().map(Json::Text),
            Some(b'[') => self.enclosed(b']', Reader::value).map(Json::List),
            Some(b'{') => self.enclosed(b'}', Reader::member).and_then(|members| self.object(members)),
            _ => self.number(),
        }
    }

    /// An object has no key twice.
    fn object(&self, members: Vec<(String, Json)>) -> Result<Json, usize> {
        let keys: BTreeSet<&String> = members.iter().map(|(key, _)| key).collect();
        if keys.len() == members.len() { Ok(Json::Object(members)) } else { Err(self.at) }
    }

    fn member(&mut self) -> Result<(String, Json), usize> {
        self.space();
        let key = self.string()?;
        self.space();
        self.expect(":")?;
        Ok((key, self.value()?))
    }

    fn enclosed<T>(
        &mut self,
        close: u8,
        one: impl Fn(&mut Self) -> Result<T, usize>,
    ) -> Result<Vec<T>, usize> {
        self.at += 1;
        self.space();
        let mut values = Vec::new();
        if self.bytes.get(self.at) == Some(&close) {
            self.at += 1;
            return Ok(values);
        }
        loop {
            values.push(one(self)?);
            self.space();
            match self.next()? {
                b',' => {}
                byte if byte == close => return Ok(values),
                _ => return Err(self.at - 1),
            }
        }
    }

    fn string(&mut self) -> Result<String, usize> {
        self.expect("\"")?;
        let mut units: Vec<u16> = Vec::new();
        loop {
            let start = self.at;
            match self.next()? {
                b'"' => return String::from_utf16(&units).map_err(|_| start),
                b'\\' => units.push(self.escape()?),
                byte @ b' '..=b'~' => units.push(byte.into()),
                _ => return Err(start), // control signs, and what is not ASCII
            }
        }
    }

    fn escape(&mut self) -> Result<u16, usize> {
        let plain = |byte: u8| Ok(u16::from(byte));
        match self.next()? {
            byte @ (b'"' | b'\\' | b'/') => plain(byte),
            b'b' => plain(8),
            b'f' => plain(12),
            b'n' => plain(b'\n'),
            b'r' => plain(b'\r'),
            b't' => plain(b'\t'),
            b'u' => {
                let digits = self.bytes.get(self.at..self.at + 4).ok_or(self.at)?;
                let digits = str::from_utf8(digits).map_err(|_| self.at)?;
                let unit = u16::from_str_radix(digits, 16).map_err(|_| self.at)?;
                self.at += 4;
                Ok(unit)
            }
            _ => Err(self.at - 1),
        }
    }

    fn digits(&mut self) -> Result<(), usize> {
        let start = self.at;
        while self.bytes.get(self.at).is_some_and(u8::is_ascii_digit) {
            self.at += 1;
        }
        if self.at == start { Err(start) } else { Ok(()) }
    }

    fn number(&mut self) -> Result<Json, usize> {
        let start = self.at;
        let _ = self.expect("-");
        if self.expect("0").is_err() {
            self.digits()?;
        }
        if self.expect(".").is_ok() {
            self.digits()?;
        }
        let text = str::from_utf8(&self.bytes[start..self.at]).map_err(|_| start)?;
        text.parse().map(Json::Number).map_err(|_| start)
    }
}

#[test]
fn what_is_no_json_is_reported() {
    for wrong in [
        "",
        "{",
        "{\"a\":}",
        "[1,]",
        "01",
        "\"\n\"",
        "\"\\ud800\"",
        "\"ö\"",
        "nul",
        "1 2",
        "{\"a\":1,\"a\":2}",
        "NaN",
    ] {
        assert!(Json::parse(wrong).is_err(), "{wrong}");
    }
    let right = r#" {"a":[1,-0.5,null,true],"b":"\u00f6\"","c":{}} "#;
    assert_eq!(Json::parse(right).unwrap().text("b"), "ö\"");
}
