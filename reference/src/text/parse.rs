//! A parser of the JSON that rows have: numbers without sign, fraction and exponent, and strings of printable bytes.

use super::json::Json;
use std::borrow::Cow;
use std::collections::BTreeMap;

struct Parser<'a> {
    text: &'a [u8],
    at: usize,
}

/// Parses a text that is one JSON value. A depth of more than 64 is refused.
pub fn parse(text: &[u8]) -> Option<Json> {
    let mut p = Parser { text, at: 0 };
    let value = p.value(64)?;
    if p.at == text.len() {
        Some(value)
    } else {
        None
    }
}

impl Parser<'_> {
    fn peek(&self) -> Option<u8> {
        self.text.get(self.at).copied()
    }

    fn take(&mut self, byte: u8) -> Option<()> {
        if self.peek()? != byte {
            return None;
        }
        self.at += 1;
        Some(())
    }

    fn value(&mut self, depth: u32) -> Option<Json> {
        let depth = depth.checked_sub(1)?;
        match self.peek()? {
            b'n' => {
                let is_null = self.text[self.at..].starts_with(b"null");
                self.at += 4;
                is_null.then_some(Json::Null)
            }
            b'"' => self.string().map(Json::Text),
            b'[' => self.list(depth),
            b'{' => self.fields(depth),
            _ => self.number(),
        }
    }

    fn number(&mut self) -> Option<Json> {
        let start = self.at;
        while self.peek().is_some_and(|b| b.is_ascii_digit()) {
            self.at += 1;
        }
        crate::values::read_number(&self.text[start..self.at], u64::MAX).map(Json::Num)
    }

    fn string(&mut self) -> Option<String> {
        self.take(b'"')?;
        let mut all = String::new();
        loop {
            let mut byte = self.peek()?;
            self.at += 1;
            match byte {
                b'"' => return Some(all),
                b'\\' => {
                    byte = self.peek().filter(|b| *b == b'"' || *b == b'\\')?;
                    self.at += 1;
                }
                33..=126 => {}
                _ => return None,
            }
            all.push(char::from(byte));
        }
    }

    /// Parses what stands between two brackets, parted by commas.
    fn parted(&mut self, end: u8, mut one: impl FnMut(&mut Self) -> Option<()>) -> Option<()> {
        self.at += 1;
        if self.peek()? == end {
            self.at += 1;
            return Some(());
        }
        loop {
            one(self)?;
            if self.peek()? == end {
                self.at += 1;
                return Some(());
            }
            self.take(b',')?;
        }
    }

    fn list(&mut self, depth: u32) -> Option<Json> {
        let mut all = Vec::new();
        self.parted(b']', |p| {
            all.push(p.value(depth)?);
            Some(())
        })?;
        Some(Json::List(all))
    }

    fn fields(&mut self, depth: u32) -> Option<Json> {
        let mut all = BTreeMap::new();
        self.parted(b'}', |p| {
            let name = p.string()?;
            p.take(b':')?;
            let value = p.value(depth)?;
            all.insert(Cow::Owned(name), value).is_none().then_some(())
        })?;
        Some(Json::Fields(all))
    }
}
