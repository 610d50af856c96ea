//! A small reader of JSON: what the vectors need, no more.

#[derive(Clone, Debug, PartialEq)]
pub enum Json {
    Null,
    Bool(bool),
    Number(i128),
    Text(String),
    List(Vec<Json>),
    Record(Vec<(String, Json)>),
}

impl Json {
    pub fn parse(text: &str) -> Result<Json, String> {
        let mut reader = Reader { bytes: text.as_bytes(), at: 0 };
        let value = reader.value()?;
        reader.space();
        if reader.at == reader.bytes.len() {
            Ok(value)
        } else {
            Err(reader.error("something after the value"))
        }
    }

    /// A field of a record; null where it is not there.
    pub fn field(&self, name: &str) -> &Json {
        match self {
            Json::Record(fields) => fields.iter().find(|(n, _)| n == name).map_or(&Json::Null, |(_, v)| v),
            _ => &Json::Null,
        }
    }

    pub fn number(&self) -> Result<u64, String> {
        match self {
            Json::Number(n) => u64::try_from(*n).map_err(|_| format!("{n} is no u64")),
            other => Err(format!("a number is wanted, not {other:?}")),
        }
    }

    pub fn text(&self) -> Result<&str, String> {
        match self {
            Json::Text(text) => Ok(text),
            other => Err(format!("a text is wanted, not {other:?}")),
        }
    }

    pub fn list(&self) -> Result<&[Json], String> {
        match self {
            Json::List(list) => Ok(list),
            other => Err(format!("a list is wanted, not {other:?}")),
        }
    }

    pub fn words(&self) -> Result<Vec<u32>, String> {
        self.list()?.iter().map(Json::word).collect()
    }

    pub fn word(&self) -> Result<u32, String> {
        let number = self.number()?;
        u32::try_from(number).map_err(|_| format!("{number} is wider than a word"))
    }
}

struct Reader<'a> {
    bytes: &'a [u8],
    at: usize,
}

impl Reader<'_> {
    fn error(&self, what: &str) -> String {
        format!("{what} at byte {}", self.at)
    }

    fn space(&mut self) {
        while self.bytes.get(self.at).is_some_and(u8::is_ascii_whitespace) {
            self.at += 1;
        }
    }

    fn peek(&mut self) -> Option<u8> {
        self.space();
        self.bytes.get(self.at).copied()
    }

    fn expect(&mut self, byte: u8) -> Result<(), String> {
        if self.peek() == Some(byte) {
            self.at += 1;
            Ok(())
        } else {
            Err(self.error(&format!("'{}' is wanted", byte as char)))
        }
    }

    fn literal(&mut self, word: &str, value: Json) -> Result<Json, String> {
        if self.bytes[self.at..].starts_with(word.as_bytes()) {
            self.at += word.len();
            Ok(value)
        } else {
            Err(self.error("no value"))
        }
    }

    fn value(&mut self) -> Result<Json, String> {
        match self.peek() {
            Some(b'{') => self.record(),
            Some(b'[') => self.sequence(),
            Some(b'"') => self.string().map(Json::Text),
            Some(b't') => self.literal("true", Json::Bool(true)),
            Some(b'f') => self.literal("false", Json::Bool(false)),
            Some(b'n') => self.literal("null", Json::Null),
            Some(b'-' | b'0'..=b'9') => self.integer(),
            _ => Err(self.error("no value")),
        }
    }

    fn integer(&mut self) -> Result<Json, String> {
        let start = self.at;
        self.at += 1;
        while self.bytes.get(self.at).is_some_and(u8::is_ascii_digit) {
            self.at += 1;
        }
        let digits = std::str::from_utf8(&self.bytes[start..self.at]).expect("digits");
        digits.parse().map(Json::Number).map_err(|_| self.error("no whole number"))
    }

    fn string(&mut self) -> Result<String, String> {
        self.expect(b'"')?;
        let mut out = Vec::new();
        loop {
            let byte = *self.bytes.get(self.at).ok_or_else(|| self.error("an open text"))?;
            self.at += 1;
            match byte {
                b'"' => break,
                b'\\' => out.push(self.escape()?),
                other => out.push(other),
            }
        }
        String::from_utf8(out).map_err(|_| self.error("no UTF-8"))
    }

    /// Only one-byte escapes occur in the vectors.
    fn escape(&mut self) -> Result<u8, String> {
        let byte = *self.bytes.get(self.at).ok_or_else(|| self.error("an open escape"))?;
        self.at += 1;
        match byte {
            b'n' => Ok(b'\n'),
            b't' => Ok(b'\t'),
            b'r' => Ok(b'\r'),
            b'"' | b'\\' | b'/' => Ok(byte),
            _ => Err(self.error("an escape that is not read here")),
        }
    }

    fn sequence(&mut self) -> Result<Json, String> {
        self.expect(b'[')?;
        let mut list = Vec::new();
        while self.peek() != Some(b']') {
            if !list.is_empty() {
                self.expect(b',')?;
            }
            list.push(self.value()?);
        }
        self.expect(b']')?;
        Ok(Json::List(list))
    }

    fn record(&mut self) -> Result<Json, String> {
        self.expect(b'{')?;
        let mut fields = Vec::new();
        while self.peek() != Some(b'}') {
            if !fields.is_empty() {
                self.expect(b',')?;
            }
            self.space();
            let name = self.string()?;
            self.expect(b':')?;
            fields.push((name, self.value()?));
        }
        self.expect(b'}')?;
        Ok(Json::Record(fields))
    }
}
