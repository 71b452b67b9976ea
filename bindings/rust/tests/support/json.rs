//! A reader of JSON, for the index of the recordings.

#[derive(Clone, Debug, PartialEq)]
pub enum Json {
    Null,
    Bool(bool),
    Number(f64),
    Text(String),
    List(Vec<Json>),
    Map(Vec<(String, Json)>),
}

impl Json {
    pub fn read(text: &str) -> Json {
        let mut reader = Reader { rest: text };
        let value = reader.value();
        assert_eq!(reader.rest.trim(), "");
        value
    }

    pub fn get(&self, name: &str) -> Option<&Json> {
        match self {
            Json::Map(pairs) => pairs.iter().find(|(key, _)| key == name).map(|(_, value)| value),
            _ => None,
        }
    }

    pub fn list(&self) -> &[Json] {
        match self {
            Json::List(list) => list,
            other => panic!("{other:?} is no list"),
        }
    }

    pub fn text(&self) -> &str {
        match self {
            Json::Text(text) => text,
            other => panic!("{other:?} is no text"),
        }
    }

    pub fn number(&self) -> usize {
        match self {
            Json::Number(number) => *number as usize,
            other => panic!("{other:?} is no number"),
        }
    }

    /// Returns the name and the value of a map of one pair, or of the first.
    pub fn first(&self) -> (&str, &Json) {
        match self {
            Json::Map(pairs) => (&pairs[0].0, &pairs[0].1),
            other => panic!("{other:?} is no map"),
        }
    }
}

struct Reader<'a> {
    rest: &'a str,
}

impl Reader<'_> {
    fn skip(&mut self, prefix: &str) -> bool {
        let found = self.rest.trim_start().strip_prefix(prefix);
        self.rest = found.unwrap_or(self.rest);
        found.is_some()
    }

    fn value(&mut self) -> Json {
        if self.skip("{") {
            return Json::Map(self.items("}", |reader| {
                let name = reader.value();
                assert!(reader.skip(":"));
                (name.text().to_string(), reader.value())
            }));
        }
        if self.skip("[") {
            return Json::List(self.items("]", Reader::value));
        }
        if self.skip("\"") {
            return Json::Text(self.string());
        }
        for (word, value) in
            [("null", Json::Null), ("true", Json::Bool(true)), ("false", Json::Bool(false))]
        {
            if self.skip(word) {
                return value;
            }
        }
        let rest = self.rest.trim_start();
        let end = rest.find(|c: char| !"+-.0123456789eE".contains(c)).unwrap_or(rest.len());
        self.rest = &rest[end..];
        Json::Number(rest[..end].parse().unwrap())
    }

    fn items<T>(&mut self, end: &str, mut item: impl FnMut(&mut Self) -> T) -> Vec<T> {
        let mut items = Vec::new();
        while !self.skip(end) {
            assert!(items.is_empty() || self.skip(","));
            items.push(item(self));
        }
        items
    }

    fn string(&mut self) -> String {
        let mut text = String::new();
        loop {
            let mut chars = self.rest.chars();
            let letter = match chars.next().unwrap() {
                '"' => {
                    self.rest = chars.as_str();
                    return text;
                }
                '\\' => match chars.next().unwrap() {
                    'n' => '\n',
                    't' => '\t',
                    'r' => '\r',
                    'b' => '\u{8}',
                    'f' => '\u{c}',
                    'u' => {
                        let digits = &chars.as_str()[..4];
                        chars = chars.as_str()[4..].chars();
                        char::from_u32(u32::from_str_radix(digits, 16).unwrap()).unwrap()
                    }
                    other => other,
                },
                other => other,
            };
            self.rest = chars.as_str();
            text.push(letter);
        }
    }
}
