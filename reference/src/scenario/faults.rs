//! Why a text is no scenario.

/// The causes, in the order in which they count.
#[derive(Clone, Copy, PartialEq, Eq, PartialOrd, Ord, Debug)]
pub enum Fault {
    MissingHeader,
    BadByte,
    UnknownWord,
    OutOfPlace,
    WrongCount,
    BadNumber,
    BadKey,
    BadValue,
    UnknownName,
    Repeated,
    BadBoundary,
    TooMany,
    UnendedClient,
    MissingPart,
    TooLarge,
}

impl Fault {
    /// Returns the words of the cause.
    pub fn reason(self) -> &'static str {
        match self {
            Fault::MissingHeader => "missing header",
            Fault::BadByte => "bad byte",
            Fault::UnknownWord => "unknown word",
            Fault::OutOfPlace => "out of place",
            Fault::WrongCount => "wrong count",
            Fault::BadNumber => "bad number",
            Fault::BadKey => "bad key",
            Fault::BadValue => "bad value",
            Fault::UnknownName => "unknown name",
            Fault::Repeated => "repeated",
            Fault::BadBoundary => "bad boundary",
            Fault::TooMany => "too many",
            Fault::UnendedClient => "unended client",
            Fault::MissingPart => "missing part",
            Fault::TooLarge => "too large",
        }
    }
}

/// The first line that is bad, and why.
#[derive(Clone, Copy, PartialEq, Eq, Debug)]
pub struct Bad {
    pub line: u32,
    pub why: Fault,
}

impl std::fmt::Display for Bad {
    fn fmt(&self, f: &mut std::fmt::Formatter) -> std::fmt::Result {
        write!(f, "line {}: {}", self.line, self.why.reason())
    }
}
