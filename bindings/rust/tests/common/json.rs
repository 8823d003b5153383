//! A tiny reader of JSON, strict, enough for certificates: whole numbers, no name twice in an object, nothing behind the value.

pub enum Json {
    Int(i128),
    List(Vec<Json>),
    Map(Vec<(String, Json)>),
    Text(String),
    Word(&'static str),
}

pub type Row = Vec<i128>;

const DEEPEST: usize = 50; // a certificate has lists in lists, four deep

struct Reader<'a> {
    s: &'a [u8],
    at: usize,
}

/// Reads a whole text.
pub fn read(text: &str) -> Option<Json> {
    let mut from = Reader { s: text.as_bytes(), at: 0 };
    let value = from.value(0)?;
    (from.next() == None).then_some(value)
}

impl Reader<'_> {
    /// The next byte that is no space.
    fn next(&mut self) -> Option<u8> {
        while self.s.get(self.at).is_some_and(|c| b" \r\n\t".contains(c)) {
            self.at += 1
        }
        self.s.get(self.at).copied()
    }
    fn take(&mut self, byte: u8) -> Option<()> {
        (self.next()? == byte).then(|| self.at += 1)
    }
    fn value(&mut self, depth: usize) -> Option<Json> {
        match self.next()? {
            _ if depth > DEEPEST => None,
            b'"' => self.text().map(Json::Text),
            b'[' => {
                let mut list = vec![];
                self.items(b'[', b']', |from| from.value(depth + 1).map(|v| list.push(v)))?;
                Some(Json::List(list))
            }
            b'{' => {
                let mut map: Vec<(String, Json)> = vec![];
                self.items(b'{', b'}', |from| {
                    let name = from.text()?;
                    from.take(b':')?;
                    let value = from.value(depth + 1)?;
                    map.iter().all(|e| e.0 != name).then(|| map.push((name, value)))
                })?;
                Some(Json::Map(map))
            }
            _ => self.word(),
        }
    }
    /// Items with commas between them.
    fn items(&mut self, open: u8, close: u8, mut item: impl FnMut(&mut Self) -> Option<()>) -> Option<()> {
        self.take(open)?;
        if self.next()? == close {
            return self.take(close);
        }
        loop {
            item(self)?;
            if self.next()? == close {
                return self.take(close);
            }
            self.take(b',')?
        }
    }
    /// A whole number, or true, false, null; a fraction is nothing that a certificate has.
    fn word(&mut self) -> Option<Json> {
        let from = self.at;
        while self.s.get(self.at).is_some_and(|c| c.is_ascii_alphanumeric() || b"+-.".contains(c)) {
            self.at += 1
        }
        let word = std::str::from_utf8(&self.s[from..self.at]).ok()?;
        if let Some(known) = ["true", "false", "null"].into_iter().find(|known| *known == word) {
            return Some(Json::Word(known));
        }
        let digits = word.strip_prefix('-').unwrap_or(word);
        let plain = digits == "0" || !digits.starts_with('0') && digits.bytes().all(|c| c.is_ascii_digit());
        plain.then(|| word.parse().ok().map(Json::Int))?
    }
    fn text(&mut self) -> Option<String> {
        self.take(b'"')?;
        let mut found = vec![];
        loop {
            let byte = *self.s.get(self.at)?;
            self.at += 1;
            match byte {
                b'"' => return String::from_utf8(found).ok(),
                b'\\' => found.extend(self.escape()?.to_string().bytes()),
                0..=31 => return None,
                _ => found.push(byte),
            }
        }
    }
    fn escape(&mut self) -> Option<char> {
        let byte = *self.s.get(self.at)?;
        self.at += 1;
        if byte == b'u' {
            let code = std::str::from_utf8(self.s.get(self.at..self.at + 4)?).ok()?;
            self.at += 4;
            let code = code.bytes().all(|c| c.is_ascii_hexdigit()).then(|| u32::from_str_radix(code, 16).ok())??;
            return Some(char::from_u32(code).unwrap_or('\u{fffd}')); // half a pair: no name here has one
        }
        let known = b"\"\\/bfnrt".iter().position(|c| *c == byte)?;
        "\"\\/\u{8}\u{c}\n\r\t".chars().nth(known)
    }
}

impl Json {
    pub fn get(&self, name: &str) -> Option<&Json> {
        if let Json::Map(m) = self {
            m.iter().find(|e| e.0 == name).map(|e| &e.1)
        } else {
            None
        }
    }
    /// An object with these names and no other.
    pub fn only(&self, names: &[&str]) -> Option<()> {
        let count = if let Json::Map(m) = self { m.len() } else { 0 };
        (count == names.len() && names.iter().all(|name| self.get(name).is_some())).then_some(())
    }
    pub fn int(&self) -> Option<i128> {
        if let Json::Int(v) = self {
            Some(*v)
        } else {
            None
        }
    }
    pub fn row(&self, name: &str) -> Option<Row> {
        self.list(name)?.iter().map(Json::int).collect()
    }
    pub fn list(&self, name: &str) -> Option<&[Json]> {
        if let Json::List(l) = self.get(name)? {
            Some(l)
        } else {
            None
        }
    }
    pub fn table(&self, name: &str, m: usize, n: usize) -> Option<Vec<Row>> {
        let rows: Vec<Row> = self
            .list(name)?
            .iter()
            .map(|r| if let Json::List(l) = r { l.iter().map(Json::int).collect() } else { None })
            .collect::<Option<_>>()?;
        (rows.len() == m && rows.iter().all(|r| r.len() == n)).then_some(rows)
    }
    pub fn is(&self, word: &str) -> bool {
        matches!(self, Json::Word(w) if *w == word)
    }
    pub fn says(&self, text: &str) -> bool {
        matches!(self, Json::Text(t) if t == text)
    }
}
