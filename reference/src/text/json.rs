//! JSON in the one spelling that rows have: compact, with names in ascending order.

use std::borrow::Cow;
use std::collections::BTreeMap;

/// A JSON value. Its numbers are not negative.
#[derive(Clone, PartialEq, Eq, Debug)]
pub enum Json {
    Null,
    Bool(bool),
    Num(u64),
    Text(String),
    List(Vec<Json>),
    /// An object; its fields are sorted by name.
    Fields(BTreeMap<Cow<'static, str>, Json>),
}

fn write_text(text: &str, out: &mut String) {
    out.push('"');
    for c in text.chars() {
        if c == '"' || c == '\\' {
            out.push('\\');
        }
        out.push(c);
    }
    out.push('"');
}

impl Json {
    /// Appends the text of the value.
    pub fn write(&self, out: &mut String) {
        match self {
            Json::Null => out.push_str("null"),
            Json::Bool(truth) => out.push_str(if *truth { "true" } else { "false" }),
            Json::Num(n) => out.push_str(&n.to_string()),
            Json::Text(t) => write_text(t, out),
            Json::List(all) => {
                out.push('[');
                for (i, j) in all.iter().enumerate() {
                    if i > 0 {
                        out.push(',');
                    }
                    j.write(out);
                }
                out.push(']');
            }
            Json::Fields(all) => {
                out.push('{');
                for (i, (name, j)) in all.iter().enumerate() {
                    if i > 0 {
                        out.push(',');
                    }
                    write_text(name, out);
                    out.push(':');
                    j.write(out);
                }
                out.push('}');
            }
        }
    }

    /// Returns the text of the value.
    pub fn text(&self) -> String {
        let mut out = String::new();
        self.write(&mut out);
        out
    }

    /// Returns a field of an object.
    pub fn get(&self, name: &str) -> Option<&Json> {
        match self {
            Json::Fields(all) => all.get(name),
            _ => None,
        }
    }

    /// Returns the name of a variant and its content: null where it has none.
    pub fn variant(&self) -> Option<(&str, &Json)> {
        match self {
            Json::Text(name) => Some((name, &Json::Null)),
            Json::Fields(all) if all.len() == 1 => all.iter().next().map(|(name, j)| (name.as_ref(), j)),
            _ => None,
        }
    }
}

/// Makes an object.
pub fn fields<const N: usize>(all: [(&'static str, Json); N]) -> Json {
    Json::Fields(all.into_iter().map(|(name, j)| (Cow::Borrowed(name), j)).collect())
}

/// Makes a variant without content.
pub fn name(n: &str) -> Json {
    Json::Text(n.to_string())
}

/// Makes a variant with one unnamed content.
pub fn variant(n: &'static str, content: Json) -> Json {
    fields([(n, content)])
}

/// Makes a variant with named fields.
pub fn record<const N: usize>(n: &'static str, all: [(&'static str, Json); N]) -> Json {
    variant(n, fields(all))
}

/// Makes a number.
pub fn num(n: impl Into<u64>) -> Json {
    Json::Num(n.into())
}

/// Makes a list.
pub fn list<T>(all: impl IntoIterator<Item = T>, one: impl Fn(T) -> Json) -> Json {
    Json::List(all.into_iter().map(one).collect())
}

/// Makes what may be absent.
pub fn option<T>(x: &Option<T>, one: impl Fn(&T) -> Json) -> Json {
    x.as_ref().map_or(Json::Null, one)
}
