//! Whether a text is JSON, to the letter.
#![allow(dead_code)]

struct Reader<'a>(&'a [u8]);

impl Reader<'_> {
    fn blank(&mut self) {
        while let Some((b' ' | b'\n' | b'\t' | b'\r', rest)) = self.0.split_first() {
            self.0 = rest;
        }
    }

    fn eat(&mut self, text: &str) -> bool {
        self.blank();
        match self.0.strip_prefix(text.as_bytes()) {
            Some(rest) => {
                self.0 = rest;
                true
            }
            None => false,
        }
    }

    fn string(&mut self) -> bool {
        if !self.eat("\"") {
            return false;
        }
        while let Some((byte, rest)) = self.0.split_first() {
            self.0 = rest;
            match byte {
                b'"' => return true,
                b'\\' => self.0 = self.0.get(1..).unwrap_or_default(),
                0..=31 => return false,
                _ => {}
            }
        }
        false
    }

    fn number(&mut self) -> bool {
        self.blank();
        let is_part = |byte: &u8| byte.is_ascii_digit() || b"+-.eE".contains(byte);
        let length = self.0.iter().take_while(|byte| is_part(byte)).count();
        let (text, rest) = self.0.split_at(length);
        self.0 = rest;
        let text = std::str::from_utf8(text).unwrap_or_default();
        text.parse::<f64>().is_ok() && !text.starts_with(['+', '.']) && !text.ends_with('.')
    }

    /// Items between commas up to a closing letter.
    fn items(&mut self, close: &str, item: fn(&mut Self) -> bool) -> bool {
        if self.eat(close) {
            return true;
        }
        while item(self) {
            if self.eat(close) {
                return true;
            }
            if !self.eat(",") {
                return false;
            }
        }
        false
    }

    fn member(&mut self) -> bool {
        self.string() && self.eat(":") && self.value()
    }

    fn value(&mut self) -> bool {
        self.blank();
        match self.0.first() {
            Some(b'{') => self.eat("{") && self.items("}", Self::member),
            Some(b'[') => self.eat("[") && self.items("]", Self::value),
            Some(b'"') => self.string(),
            Some(b't') => self.eat("true"),
            Some(b'f') => self.eat("false"),
            Some(b'n') => self.eat("null"),
            _ => self.number(),
        }
    }
}

pub fn is_json(text: &str) -> bool {
    let mut reader = Reader(text.as_bytes());
    let good = reader.value();
    reader.blank();
    good && reader.0.is_empty()
}

/// The lines of a sheet in JSON.
pub fn lines(text: &str) -> Vec<&str> {
    text.lines().filter(|line| line.starts_with("{\"line\":")).collect()
}

/// A member of a line, as it is written; its first one of that name, no object or list.
pub fn member<'a>(line: &'a str, name: &str) -> &'a str {
    let rest = line.split(&format!("\"{name}\":")).nth(1).expect(name);
    rest.split([',', '}']).next().expect(name)
}

pub fn number(line: &str, name: &str) -> f64 {
    member(line, name).parse().expect(name)
}
