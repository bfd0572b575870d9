use std::fmt;

/// A name, a comment or a label: bytes in no particular encoding. They are shown as Latin-1, as Amigas do.
#[derive(Clone, Copy, Debug, Default, PartialEq, Eq, PartialOrd, Ord, Hash)]
pub struct Text<'volume>(&'volume [u8]);

impl<'volume> Text<'volume> {
    /// The first bytes of a field.
    pub(crate) fn of(field: &'volume [u8], length: u8) -> Text<'volume> {
        Text(&field[..field.len().min(usize::from(length))])
    }

    /// Bytes that stand elsewhere.
    pub(crate) fn of_bytes(bytes: &'volume [u8]) -> Text<'volume> {
        Text(bytes)
    }

    /// The bytes.
    pub fn as_bytes(self) -> &'volume [u8] {
        self.0
    }

    /// The escape form, as `adf list` writes it: a byte outside 32 to 126, and the backslash, is `\xHH`.
    pub fn escaped(self) -> String {
        escape(self.0)
    }
}

/// The escape form of bytes, as `adf list` writes it and `adf cat` takes it: a byte outside 32 to 126, and the backslash, is `\xHH`.
pub fn escape(bytes: &[u8]) -> String {
    let escaped = |&byte: &u8| match byte {
        b'\\' => "\\x5c".to_owned(),
        32..=126 => char::from(byte).to_string(),
        _ => format!("\\x{byte:02x}"),
    };
    bytes.iter().map(escaped).collect()
}

/// The bytes of an escape form; `None` if a backslash does not begin `\xHH`, or another character is not one of the bytes 32 to 126.
pub fn unescape(text: &str) -> Option<Vec<u8>> {
    let mut bytes = Vec::new();
    let mut rest = text.as_bytes();
    while let [first, after @ ..] = rest {
        rest = after;
        match *first {
            b'\\' => {
                let (digits, behind) = rest.strip_prefix(b"x").filter(|hex| hex.len() >= 2)?.split_at(2);
                let digit = |&byte: &u8| char::from(byte).to_digit(16);
                bytes.push((16 * digit(&digits[0])? + digit(&digits[1])?) as u8);
                rest = behind;
            }
            byte @ 32..=126 => bytes.push(byte),
            _ => return None,
        }
    }
    Some(bytes)
}

/// How `adf-survey` spells a name without bytes.
const NO_BYTES: &str = "\\x";

/// A path of names that need not be names, as `adf-survey` spells it: each in the escape form, in which `/` and `:` are `\x2f` and
/// `\x3a`; a name without bytes is `\x`.
pub(crate) fn spelled(names: &[&[u8]]) -> String {
    let name = |name: &&[u8]| match name {
        [] => NO_BYTES.to_owned(),
        _ => escape(name).replace('/', "\\x2f").replace(':', "\\x3a"),
    };
    names.iter().map(name).collect::<Vec<_>>().join("/")
}

/// The escape form of a path in Latin-1, or of one that `adf-survey` spells, which stays as it is; `None` if it has other characters.
pub(crate) fn as_spelled(path: &str) -> Option<String> {
    let (mut spelled, mut rest) = (String::new(), path);
    while let Some(letter) = rest.chars().next() {
        let length = spelled_length(rest).unwrap_or(0);
        if length > 0 {
            spelled.push_str(&rest[..length]);
            rest = &rest[length..];
        } else {
            spelled.push_str(&escape(&[u8::try_from(letter).ok()?]));
            rest = &rest[letter.len_utf8()..];
        }
    }
    Some(spelled)
}

/// How many letters of a byte in the escape form, or of a name without bytes, are at the front of a text, if one is.
fn spelled_length(text: &str) -> Option<usize> {
    let behind = text.strip_prefix(NO_BYTES)?.as_bytes();
    let is_digit = |byte: &u8| matches!(byte, b'0'..=b'9' | b'a'..=b'f');
    match behind {
        [first, second, ..] if is_digit(first) && is_digit(second) => Some(4),
        [] | [b'/', ..] => Some(2),
        _ => None,
    }
}

/// The bytes of a path that `adf-survey` spells; `None` if it spells none so.
pub(crate) fn unspelled(path: &str) -> Option<Vec<u8>> {
    let name = |name: &str| if name == NO_BYTES { Some(Vec::new()) } else { unescape(name) };
    Some(path.split('/').map(name).collect::<Option<Vec<_>>>()?.join(&b'/'))
}

/// The bytes with their letters in capitals, as the volumes compare names that ignore the case of most letters: those of Latin-1.
pub(crate) fn in_capitals(bytes: &[u8]) -> Vec<u8> {
    let capital = |&byte: &u8| match byte {
        b'a'..=b'z' | 0xe0..=0xf6 | 0xf8..=0xfe => byte - 32,
        _ => byte,
    };
    bytes.iter().map(capital).collect()
}

/// The text of bytes that are Latin-1.
pub(crate) fn from_latin(bytes: &[u8]) -> String {
    bytes.iter().copied().map(char::from).collect()
}

/// The bytes of a text in Latin-1; `None` if it has other characters.
pub(crate) fn to_latin(text: &str) -> Option<Vec<u8>> {
    text.chars().map(|letter| u8::try_from(letter).ok()).collect()
}

impl fmt::Display for Text<'_> {
    fn fmt(&self, f: &mut fmt::Formatter<'_>) -> fmt::Result {
        f.pad(&from_latin(self.0))
    }
}

impl PartialEq<[u8]> for Text<'_> {
    fn eq(&self, bytes: &[u8]) -> bool {
        self.0 == bytes
    }
}
