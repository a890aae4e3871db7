//! What has a text: values that are written as JSON and read back from it.

use super::json::*;
use crate::values::*;
use std::collections::BTreeMap;

/// A value that has a text.
pub trait Coded: Sized {
    /// Returns the value as JSON.
    fn to_json(&self) -> Json;
    /// Reads the value from JSON, if it is one. Other spellings may be read too.
    fn from_json(j: &Json) -> Option<Self>;
}

/// Gives records a text: an object of their fields, by their names.
macro_rules! coded_record {
    ($t:ident { $($f:ident),* }) => {
        impl Coded for $t {
            fn to_json(&self) -> Json {
                fields([$((stringify!($f), self.$f.to_json())),*])
            }
            fn from_json(j: &Json) -> Option<Self> {
                Some($t { $($f: Coded::from_json(j.get(stringify!($f))?)?),* })
            }
        }
    };
}

/// Gives enums a text: the name of the variant, with its content where it has one.
macro_rules! coded_enum {
    (@to $v:ident) => { name(stringify!($v)) };
    (@to $v:ident ($x:ident)) => { variant(stringify!($v), $x.to_json()) };
    (@to $v:ident { $($f:ident),* }) => {
        variant(stringify!($v), fields([$((stringify!($f), $f.to_json())),*]))
    };
    (@from $t:ident $j:ident $v:ident) => { $t::$v };
    (@from $t:ident $j:ident $v:ident ($x:ident)) => { $t::$v(Coded::from_json($j)?) };
    (@from $t:ident $j:ident $v:ident { $($f:ident),* }) => {
        $t::$v { $($f: Coded::from_json($j.get(stringify!($f))?)?),* }
    };
    ($t:ident { $($v:ident $(($x:ident))? $({ $($f:ident),* })?,)* }) => {
        impl Coded for $t {
            fn to_json(&self) -> Json {
                match self {
                    $($t::$v $(($x))? $({ $($f),* })? => coded_enum!(@to $v $(($x))? $({ $($f),* })?),)*
                }
            }
            fn from_json(j: &Json) -> Option<Self> {
                let (name, content) = j.variant()?;
                $(if name == stringify!($v) {
                    return Some(coded_enum!(@from $t content $v $(($x))? $({ $($f),* })?));
                })*
                None
            }
        }
    };
}

pub(super) use {coded_enum, coded_record};

macro_rules! coded_number {
    ($($t:ident)*) => {
        $(impl Coded for $t {
            fn to_json(&self) -> Json {
                Json::Num(u64::from(*self))
            }
            fn from_json(j: &Json) -> Option<Self> {
                match j {
                    Json::Num(n) => $t::try_from(*n).ok(),
                    _ => None,
                }
            }
        })*
    };
}

coded_number! { u8 u16 u32 u64 }

fn bytes(b: &[u8]) -> Json {
    Json::Text(b.iter().map(|c| char::from(*c)).collect())
}

fn bytes_of(j: &Json) -> Option<&[u8]> {
    match j {
        Json::Text(t) => Some(t.as_bytes()),
        _ => None,
    }
}

fn items(j: &Json) -> Option<&[Json]> {
    match j {
        Json::List(all) => Some(all),
        _ => None,
    }
}

impl Coded for Key {
    fn to_json(&self) -> Json {
        bytes(&self.0)
    }
    fn from_json(j: &Json) -> Option<Self> {
        key(bytes_of(j)?)
    }
}

impl Coded for Value {
    fn to_json(&self) -> Json {
        bytes(&self.0)
    }
    fn from_json(j: &Json) -> Option<Self> {
        value(bytes_of(j)?)
    }
}

impl Coded for Draw {
    fn to_json(&self) -> Json {
        Json::Text(self.to_string())
    }
    fn from_json(j: &Json) -> Option<Self> {
        let text = bytes_of(j)?;
        let dot = text.iter().position(|b| *b == b'.')?;
        let node = read_number(&text[..dot], u64::from(u16::MAX))? as u16;
        let count = read_number(&text[dot + 1..], u64::from(u32::MAX))? as u32;
        Some(Draw { node, count })
    }
}

impl<A: Coded, B: Coded> Coded for (A, B) {
    fn to_json(&self) -> Json {
        Json::List(vec![self.0.to_json(), self.1.to_json()])
    }
    fn from_json(j: &Json) -> Option<Self> {
        match items(j)? {
            [a, b] => Some((A::from_json(a)?, B::from_json(b)?)),
            _ => None,
        }
    }
}

impl Coded for Ballot {
    fn to_json(&self) -> Json {
        (self.round, self.node).to_json()
    }
    fn from_json(j: &Json) -> Option<Self> {
        <(u32, u16)>::from_json(j).map(|(round, node)| Ballot { round, node })
    }
}

impl Coded for RingArc {
    fn to_json(&self) -> Json {
        (self.lo, self.len).to_json()
    }
    fn from_json(j: &Json) -> Option<Self> {
        let (lo, len) = <(u32, u64)>::from_json(j)?;
        (1..=SPACE).contains(&len).then_some(RingArc { lo, len })
    }
}

impl<T: Coded> Coded for Option<T> {
    fn to_json(&self) -> Json {
        self.as_ref().map_or(Json::Null, |x| x.to_json())
    }
    fn from_json(j: &Json) -> Option<Self> {
        if *j == Json::Null {
            Some(None)
        } else {
            T::from_json(j).map(Some)
        }
    }
}

impl<T: Coded> Coded for Vec<T> {
    fn to_json(&self) -> Json {
        Json::List(self.iter().map(|x| x.to_json()).collect())
    }
    fn from_json(j: &Json) -> Option<Self> {
        items(j)?.iter().map(T::from_json).collect()
    }
}

impl Coded for Members {
    fn to_json(&self) -> Json {
        Json::List(self.iter().map(|n| n.to_json()).collect())
    }
    fn from_json(j: &Json) -> Option<Self> {
        let members: Members = items(j)?.iter().map(u16::from_json).collect::<Option<_>>()?;
        (1..=MOST_MEMBERS).contains(&members.len()).then_some(members)
    }
}

impl Coded for Pairs {
    fn to_json(&self) -> Json {
        Json::List(self.iter().map(|(k, v)| Json::List(vec![k.to_json(), v.to_json()])).collect())
    }
    fn from_json(j: &Json) -> Option<Self> {
        items(j)?.iter().map(<(Key, Value)>::from_json).collect()
    }
}

impl Coded for SeenList {
    fn to_json(&self) -> Json {
        let one =
            |(c, (n, r)): (&u16, &(u32, Reply))| Json::List(vec![c.to_json(), n.to_json(), r.to_json()]);
        Json::List(self.iter().map(one).collect())
    }
    fn from_json(j: &Json) -> Option<Self> {
        let one = |j: &Json| match items(j)? {
            [c, n, r] => Some((u16::from_json(c)?, (u32::from_json(n)?, Reply::from_json(r)?))),
            _ => None,
        };
        items(j)?.iter().map(one).collect::<Option<BTreeMap<_, _>>>()
    }
}
