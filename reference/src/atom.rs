//! NAME, SRC, TYPE and ATOM: the smallest parts of a line.

#[derive(Clone, Copy, Debug, PartialEq, Eq, PartialOrd, Ord, Hash)]
pub enum Source {
    User,
    Object,
    Admin,
    Env,
    Connect,
}

impl Source {
    pub const ALL: [Source; 5] = [Source::User, Source::Object, Source::Admin, Source::Env, Source::Connect];

    pub fn word(self) -> &'static str {
        match self {
            Source::User => "user",
            Source::Object => "object",
            Source::Admin => "admin",
            Source::Env => "env",
            Source::Connect => "connect",
        }
    }

    pub fn read(bytes: &[u8]) -> Option<Source> {
        let named = |source: &Source| source.word().as_bytes() == bytes;
        Source::ALL.into_iter().find(named)
    }

    /// Values of env and connect come with the pass block, never from the file.
    pub fn comes_with_block(self) -> bool {
        matches!(self, Source::Env | Source::Connect)
    }
}

#[derive(Clone, Copy, Debug, PartialEq, Eq, PartialOrd, Ord, Hash)]
pub enum Type {
    Int,
    Str,
    Bool,
}

impl Type {
    pub const ALL: [Type; 3] = [Type::Int, Type::Str, Type::Bool];

    pub fn word(self) -> &'static str {
        match self {
            Type::Int => "int",
            Type::Str => "str",
            Type::Bool => "bool",
        }
    }

    pub fn read(bytes: &[u8]) -> Option<Type> {
        let named = |kind: &Type| kind.word().as_bytes() == bytes;
        Type::ALL.into_iter().find(named)
    }
}

pub type Name = Vec<u8>;

/// 1 to 12 bytes of a-z, 0-9, `_`.
pub fn read_name(bytes: &[u8]) -> Option<Name> {
    let allowed = |byte: &u8| matches!(byte, b'a'..=b'z' | b'0'..=b'9' | b'_');
    let good = (1..=12).contains(&bytes.len()) && bytes.iter().all(allowed);
    good.then(|| bytes.to_vec())
}

/// `SRC.NAME`, parted at the first `.`.
pub fn read_dotted(bytes: &[u8]) -> Option<(Source, Name)> {
    let dot = bytes.iter().position(|&byte| byte == b'.')?;
    let source = Source::read(&bytes[..dot])?;
    let name = read_name(&bytes[dot + 1..])?;
    Some((source, name))
}

#[derive(Clone, Debug, PartialEq, Eq, PartialOrd, Ord, Hash)]
pub enum Atom {
    Int(u32),
    Str(Vec<u8>),
    Bool(bool),
}

impl Atom {
    pub fn kind(&self) -> Type {
        match self {
            Atom::Int(_) => Type::Int,
            Atom::Str(_) => Type::Str,
            Atom::Bool(_) => Type::Bool,
        }
    }

    pub fn read(bytes: &[u8]) -> Option<Atom> {
        match bytes {
            b"TRUE" => Some(Atom::Bool(true)),
            b"FALSE" => Some(Atom::Bool(false)),
            [b'"', inner @ .., b'"'] => read_text(inner).map(Atom::Str),
            _ => read_int(bytes).map(Atom::Int),
        }
    }

    /// The atom as a line writes it.
    pub fn text(&self) -> Vec<u8> {
        match self {
            Atom::Int(value) => value.to_string().into_bytes(),
            Atom::Bool(true) => b"TRUE".to_vec(),
            Atom::Bool(false) => b"FALSE".to_vec(),
            Atom::Str(inner) => [b"\"", inner.as_slice(), b"\""].concat(),
        }
    }
}

/// Decimal digits without leading zeros, up to 4294967295.
pub fn read_int(bytes: &[u8]) -> Option<u32> {
    if bytes.is_empty() || !bytes.iter().all(u8::is_ascii_digit) {
        return None;
    }
    if bytes.len() > 1 && bytes[0] == b'0' {
        return None;
    }
    std::str::from_utf8(bytes).ok()?.parse().ok()
}

/// What stands between the quotes of a string: 0 to 12 bytes of 32 to 126
/// without 34.
pub fn read_text(inner: &[u8]) -> Option<Vec<u8>> {
    let allowed = |byte: &u8| (32..=126).contains(byte) && *byte != b'"';
    (inner.len() <= 12 && inner.iter().all(allowed)).then(|| inner.to_vec())
}

#[cfg(test)]
mod tests {
    use super::*;

    #[test]
    fn names_have_1_to_12_bytes_of_the_listed_kind() {
        assert!(read_name(b"a").is_some());
        assert!(read_name(b"abcdefghij_9").is_some());
        for bad in [&b""[..], b"abcdefghij_90", b"A", b"a b", b"a.b", b"a\xc3"] {
            assert_eq!(read_name(bad), None);
        }
    }

    #[test]
    fn integers_end_at_32_bits_and_have_no_leading_zeros() {
        assert_eq!(read_int(b"0"), Some(0));
        assert_eq!(read_int(b"4294967295"), Some(u32::MAX));
        for bad in [&b""[..], b"00", b"01", b"4294967296", b"+1", b"-1", b"1 "] {
            assert_eq!(read_int(bad), None);
        }
    }

    #[test]
    fn one_quote_alone_is_no_string() {
        assert_eq!(Atom::read(b"\""), None);
        assert_eq!(Atom::read(b"\"\""), Some(Atom::Str(vec![])));
        assert_eq!(Atom::read(b"\"\\\""), Some(Atom::Str(vec![b'\\'])));
        assert_eq!(Atom::read(b"\"\\\"\""), None);
        assert_eq!(Atom::read(b"\"abcdefghijklm\""), None);
    }
}
