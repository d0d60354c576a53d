//! Lines: where they end, their key and their fields.

use crate::answer::Refusal;

/// Bytes that may stand before a line's byte 10.
pub const LINE_LIMIT: usize = 255;

/// The eleven keys in the order in which a file has them.
#[derive(Clone, Copy, Debug, PartialEq, Eq, PartialOrd, Ord, Hash)]
pub enum Key {
    Attr,
    Op,
    Atom,
    UserGroup,
    ObjectGroup,
    User,
    Object,
    Parent,
    Member,
    Value,
    Rule,
}

impl Key {
    pub const ALL: [Key; 11] = [
        Key::Attr,
        Key::Op,
        Key::Atom,
        Key::UserGroup,
        Key::ObjectGroup,
        Key::User,
        Key::Object,
        Key::Parent,
        Key::Member,
        Key::Value,
        Key::Rule,
    ];

    pub fn word(self) -> &'static str {
        match self {
            Key::Attr => "attr",
            Key::Op => "op",
            Key::Atom => "atom",
            Key::UserGroup => "ugroup",
            Key::ObjectGroup => "ogroup",
            Key::User => "user",
            Key::Object => "object",
            Key::Parent => "parent",
            Key::Member => "member",
            Key::Value => "value",
            Key::Rule => "rule",
        }
    }

    pub fn read(bytes: &[u8]) -> Option<Key> {
        let named = |key: &Key| key.word().as_bytes() == bytes;
        Key::ALL.into_iter().find(named)
    }

    pub fn is_tie(self) -> bool {
        matches!(self, Key::Parent | Key::Member | Key::Value)
    }
}

/// The pieces of `bytes`, each with its byte 10; the last may lack it. After
/// the last byte 10 there is no further piece.
pub fn pieces(bytes: &[u8]) -> impl Iterator<Item = &[u8]> {
    bytes.split_inclusive(|&byte| byte == b'\n')
}

/// Key and rest of one whole line with its byte 10, else 4. The first `=`
/// ends the key. Bytes after the byte 10 make the line no whole line.
pub fn key_and_rest(line: &[u8]) -> Result<(Key, &[u8]), Refusal> {
    let body = line.strip_suffix(b"\n").ok_or(Refusal::LineFrame)?;
    if body.len() > LINE_LIMIT || body.contains(&b'\n') {
        return Err(Refusal::LineFrame);
    }
    let equals = body.iter().position(|&byte| byte == b'=');
    let equals = equals.ok_or(Refusal::LineFrame)?;
    let key = Key::read(&body[..equals]).ok_or(Refusal::LineFrame)?;
    Ok((key, &body[equals + 1..]))
}

/// Exactly N fields parted by commas, the last with all further commas.
pub fn fields<const N: usize>(rest: &[u8]) -> Result<[&[u8]; N], Refusal> {
    let parts: Vec<&[u8]> = rest.splitn(N, |&byte| byte == b',').collect();
    parts.try_into().map_err(|_| Refusal::Malformed)
}

#[cfg(test)]
mod tests {
    use super::*;

    #[test]
    fn there_is_no_piece_after_the_last_byte_10() {
        let all: Vec<&[u8]> = pieces(b"a\n\nb\n").collect();
        assert_eq!(all, [&b"a\n"[..], b"\n", b"b\n"]);
        assert_eq!(pieces(b"").count(), 0);
        assert_eq!(pieces(b"a\nb").last(), Some(&b"b"[..]));
    }

    #[test]
    fn the_last_field_keeps_its_commas() {
        let [first, second] = fields::<2>(b"a,b,,c").unwrap();
        assert_eq!((first, second), (&b"a"[..], &b"b,,c"[..]));
        assert_eq!(fields::<1>(b"").unwrap(), [&b""[..]]);
        assert_eq!(fields::<3>(b"a,b"), Err(Refusal::Malformed));
    }

    #[test]
    fn a_line_has_at_most_255_bytes_before_its_byte_10() {
        let line = |length: usize| {
            let mut line = b"op=".to_vec();
            line.resize(length, b'a');
            line.push(b'\n');
            line
        };
        assert!(key_and_rest(&line(255)).is_ok());
        assert_eq!(key_and_rest(&line(256)), Err(Refusal::LineFrame));
    }

    #[test]
    fn bytes_after_byte_10_and_a_later_rights_are_4() {
        for bad in [&b"op=a\n\n"[..], b"op=a\nx", b"op=a", b"rights=1\n", b"op\n"] {
            assert_eq!(key_and_rest(bad), Err(Refusal::LineFrame));
        }
    }
}
