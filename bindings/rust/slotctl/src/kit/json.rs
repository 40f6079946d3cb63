//! JSON by RFC 8259, in the place of the kit's `json`: values over borrowed text, whose escaped strings lie in a scratch.

use super::alloc::{AllocError, Allocator, Global};
use super::Vec;

/// How deep arrays and objects may nest.
const DEPTH: usize = 128;

/// A value.
pub enum Value<'a> {
    /// `null`.
    Null,
    /// `true` or `false`.
    Bool(bool),
    /// A number, as it is written.
    Number(&'a str),
    /// A text.
    String(&'a str),
    /// Values.
    Array(Vec<Value<'a>>),
    /// Values with names, in their order.
    Object(Vec<(&'a str, Value<'a>)>),
}

/// Why there is no value.
#[derive(Clone, Copy, Debug, PartialEq, Eq)]
pub enum Error {
    /// The text is no JSON.
    Invalid,
    /// An allocation failed.
    OutOfMemory,
}

impl Error {
    /// `is_memory`: whether an allocation failed.
    pub fn is_memory(&self) -> bool {
        *self == Error::OutOfMemory
    }
}

impl From<AllocError> for Error {
    fn from(_: AllocError) -> Error {
        Error::OutOfMemory
    }
}

/// Where strings lie that were escaped.
pub struct Scratch<A> {
    text: std::string::String,
    ends: std::vec::Vec<usize>,
    _alloc: A,
}

impl<A: Allocator> Scratch<A> {
    /// `new`: an empty one.
    pub fn new(alloc: A) -> Scratch<A> {
        Scratch {
            text: std::string::String::new(),
            ends: std::vec::Vec::new(),
            _alloc: alloc,
        }
    }

    fn put(&mut self, letter: char) -> Result<(), AllocError> {
        self.text.try_reserve(4)?;
        self.text.push(letter);
        Ok(())
    }

    /// Puts all strings of a text that are escaped, one after another.
    fn fill(&mut self, text: &str) -> Result<(), Error> {
        let mut rest = text;
        while let Some(open) = rest.find('"') {
            let (raw, behind) = raw_string(&rest[open + 1..])?;
            if raw.contains('\\') {
                self.put_string(raw)?;
            }
            rest = behind;
        }
        Ok(())
    }

    fn put_string(&mut self, raw: &str) -> Result<(), Error> {
        let mut letters = raw.chars();
        while let Some(letter) = letters.next() {
            let letter = match letter {
                '\\' => escaped(&mut letters)?,
                other => other,
            };
            self.put(letter)?;
        }
        self.ends.try_reserve(1).map_err(|_| Error::OutOfMemory)?;
        self.ends.push(self.text.len());
        Ok(())
    }
}

/// What stands between a quote and the next that is not escaped, and what stands behind that.
fn raw_string(text: &str) -> Result<(&str, &str), Error> {
    let bytes = text.as_bytes();
    let mut at = 0;
    while let Some(byte) = bytes.get(at) {
        match byte {
            b'"' => return Ok((&text[..at], &text[at + 1..])),
            b'\\' => at += 2,
            0..=31 => return Err(Error::Invalid),
            _ => at += 1,
        }
    }
    Err(Error::Invalid)
}

/// The letter of an escape, behind its backslash.
fn escaped(letters: &mut std::str::Chars<'_>) -> Result<char, Error> {
    Ok(match letters.next() {
        Some(letter @ ('"' | '\\' | '/')) => letter,
        Some('b') => '\u{8}',
        Some('f') => '\u{c}',
        Some('n') => '\n',
        Some('r') => '\r',
        Some('t') => '\t',
        Some('u') => return unicode(letters),
        _ => return Err(Error::Invalid),
    })
}

fn hex(letters: &mut std::str::Chars<'_>) -> Result<u32, Error> {
    let mut code = 0;
    for _ in 0..4 {
        let digit = letters.next().and_then(|letter| letter.to_digit(16));
        code = code * 16 + digit.ok_or(Error::Invalid)?;
    }
    Ok(code)
}

/// The letter of four digits, or of two surrogates. One alone is refused.
fn unicode(letters: &mut std::str::Chars<'_>) -> Result<char, Error> {
    let high = hex(letters)?;
    if !(0xd800..0xdc00).contains(&high) {
        return char::from_u32(high).ok_or(Error::Invalid);
    }
    if letters.next() != Some('\\') || letters.next() != Some('u') {
        return Err(Error::Invalid);
    }
    let low = hex(letters)?;
    if !(0xdc00..0xe000).contains(&low) {
        return Err(Error::Invalid);
    }
    char::from_u32(0x10000 + (high - 0xd800) * 0x400 + low - 0xdc00).ok_or(Error::Invalid)
}

impl<'a> Value<'a> {
    /// `from_slice`: the value of a text in UTF-8.
    ///
    /// # Errors
    ///
    /// `Invalid` where it is none, or `OutOfMemory`.
    pub fn from_slice(
        alloc: Global,
        bytes: &'a [u8],
        scratch: &'a mut Scratch<Global>,
    ) -> Result<Value<'a>, Error> {
        match std::str::from_utf8(bytes) {
            Ok(text) => Value::parse(alloc, text, scratch),
            Err(_) => Err(Error::Invalid),
        }
    }

    /// `parse`: the value of a text.
    ///
    /// # Errors
    ///
    /// `Invalid` where it is none, or `OutOfMemory`.
    pub fn parse(
        alloc: Global,
        text: &'a str,
        scratch: &'a mut Scratch<Global>,
    ) -> Result<Value<'a>, Error> {
        scratch.text.clear();
        scratch.ends.clear();
        scratch.fill(text)?;
        let mut reader = Reader {
            alloc,
            rest: text,
            scratch,
            strings: 0,
        };
        let value = reader.value(DEPTH)?;
        reader.skip_blanks();
        if reader.rest.is_empty() {
            Ok(value)
        } else {
            Err(Error::Invalid)
        }
    }

    /// `get`: the value of a name, the last of several.
    pub fn get(&self, name: &str) -> Option<&Value<'a>> {
        match self {
            Value::Object(members) => {
                let found = members.iter().rev().find(|member| member.0 == name)?;
                Some(&found.1)
            }
            _ => None,
        }
    }

    /// `at`: the value at a place of an array.
    pub fn at(&self, place: usize) -> Option<&Value<'a>> {
        match self {
            Value::Array(items) => items.get(place),
            _ => None,
        }
    }

    /// `as_str`: the text.
    pub fn as_str(&self) -> Option<&'a str> {
        match self {
            Value::String(text) => Some(text),
            _ => None,
        }
    }

    /// `as_bool`: whether it is true.
    pub fn as_bool(&self) -> Option<bool> {
        match self {
            Value::Bool(is) => Some(*is),
            _ => None,
        }
    }
}

/// What is left of a text, and of the strings of it that were escaped.
struct Reader<'a> {
    alloc: Global,
    rest: &'a str,
    scratch: &'a Scratch<Global>,
    strings: usize,
}

impl<'a> Reader<'a> {
    fn skip_blanks(&mut self) {
        self.rest = self.rest.trim_start_matches([' ', '\t', '\n', '\r']);
    }

    /// Takes a sign, if it comes next.
    fn takes(&mut self, sign: &str) -> bool {
        self.skip_blanks();
        match self.rest.strip_prefix(sign) {
            Some(rest) => {
                self.rest = rest;
                true
            }
            None => false,
        }
    }

    fn value(&mut self, depth: usize) -> Result<Value<'a>, Error> {
        self.skip_blanks();
        match self.rest.as_bytes().first() {
            Some(b'"') => Ok(Value::String(self.string()?)),
            Some(b'[') => self.array(depth.checked_sub(1).ok_or(Error::Invalid)?),
            Some(b'{') => self.object(depth.checked_sub(1).ok_or(Error::Invalid)?),
            Some(b'-' | b'0'..=b'9') => self.number(),
            _ if self.takes("null") => Ok(Value::Null),
            _ if self.takes("true") => Ok(Value::Bool(true)),
            _ if self.takes("false") => Ok(Value::Bool(false)),
            _ => Err(Error::Invalid),
        }
    }

    fn array(&mut self, depth: usize) -> Result<Value<'a>, Error> {
        let mut items = Vec::new(self.alloc);
        self.takes("[");
        if self.takes("]") {
            return Ok(Value::Array(items));
        }
        loop {
            let item = self.value(depth)?;
            items.push(item).map_err(AllocError::from)?;
            if self.takes("]") {
                return Ok(Value::Array(items));
            }
            if !self.takes(",") {
                return Err(Error::Invalid);
            }
        }
    }

    fn object(&mut self, depth: usize) -> Result<Value<'a>, Error> {
        let mut members = Vec::new(self.alloc);
        self.takes("{");
        if self.takes("}") {
            return Ok(Value::Object(members));
        }
        loop {
            self.skip_blanks();
            let name = self.string()?;
            if !self.takes(":") {
                return Err(Error::Invalid);
            }
            let value = self.value(depth)?;
            members.push((name, value)).map_err(AllocError::from)?;
            if self.takes("}") {
                return Ok(Value::Object(members));
            }
            if !self.takes(",") {
                return Err(Error::Invalid);
            }
        }
    }

    fn string(&mut self) -> Result<&'a str, Error> {
        let rest = self.rest.strip_prefix('"').ok_or(Error::Invalid)?;
        let (raw, behind) = raw_string(rest)?;
        self.rest = behind;
        if !raw.contains('\\') {
            return Ok(raw);
        }
        let at = self.strings;
        self.strings += 1;
        let begin = match at {
            0 => 0,
            _ => self.scratch.ends[at - 1],
        };
        Ok(&self.scratch.text[begin..self.scratch.ends[at]])
    }

    fn number(&mut self) -> Result<Value<'a>, Error> {
        let is_part = |byte: &u8| matches!(byte, b'0'..=b'9' | b'-' | b'+' | b'.' | b'e' | b'E');
        let end = self.rest.bytes().take_while(is_part).count();
        let (number, behind) = self.rest.split_at(end);
        if !is_number(number) {
            return Err(Error::Invalid);
        }
        self.rest = behind;
        Ok(Value::Number(number))
    }
}

/// What stands behind the digits that a text begins with, if there are some.
fn behind_digits(text: &str) -> Option<&str> {
    let rest = text.trim_start_matches(|letter: char| letter.is_ascii_digit());
    (rest.len() < text.len()).then_some(rest)
}

fn is_number(text: &str) -> bool {
    let whole = text.strip_prefix('-').unwrap_or(text);
    let Some(rest) = behind_digits(whole) else {
        return false;
    };
    if whole.starts_with('0') && rest.len() + 1 < whole.len() {
        return false;
    }
    let rest = match rest.strip_prefix('.') {
        Some(part) => behind_digits(part),
        None => Some(rest),
    };
    match rest.map(|rest| (rest, rest.strip_prefix(['e', 'E']))) {
        Some((_, Some(power))) => {
            let digits = power.strip_prefix(['+', '-']).unwrap_or(power);
            behind_digits(digits) == Some("")
        }
        Some((rest, None)) => rest.is_empty(),
        None => false,
    }
}

/// `to_vec`: the text of a value.
///
/// # Errors
///
/// `AllocError` where an allocation failed.
pub fn to_vec(alloc: Global, value: &Value<'_>) -> Result<Vec<u8>, AllocError> {
    let mut text = Vec::new(alloc);
    put_value(value, &mut text)?;
    Ok(text)
}

fn put_value(value: &Value<'_>, text: &mut Vec<u8>) -> Result<(), AllocError> {
    match value {
        Value::Null => text.extend_from_slice(b"null"),
        Value::Bool(true) => text.extend_from_slice(b"true"),
        Value::Bool(false) => text.extend_from_slice(b"false"),
        Value::Number(number) => text.extend_from_slice(number.as_bytes()),
        Value::String(string) => put_string(string, text),
        Value::Array(items) => put_array(items, text),
        Value::Object(members) => put_object(members, text),
    }
}

fn put_array(items: &[Value<'_>], text: &mut Vec<u8>) -> Result<(), AllocError> {
    text.extend_from_slice(b"[")?;
    for (place, item) in items.iter().enumerate() {
        text.extend_from_slice(if place == 0 { b"" } else { b"," })?;
        put_value(item, text)?;
    }
    text.extend_from_slice(b"]")
}

fn put_object(members: &[(&str, Value<'_>)], text: &mut Vec<u8>) -> Result<(), AllocError> {
    text.extend_from_slice(b"{")?;
    for (place, (name, value)) in members.iter().enumerate() {
        text.extend_from_slice(if place == 0 { b"" } else { b"," })?;
        put_string(name, text)?;
        text.extend_from_slice(b":")?;
        put_value(value, text)?;
    }
    text.extend_from_slice(b"}")
}

fn put_string(string: &str, text: &mut Vec<u8>) -> Result<(), AllocError> {
    text.extend_from_slice(b"\"")?;
    for byte in string.bytes() {
        match byte {
            b'"' => text.extend_from_slice(b"\\\"")?,
            b'\\' => text.extend_from_slice(b"\\\\")?,
            0..=31 => {
                let digits = b"0123456789abcdef";
                text.extend_from_slice(b"\\u00")?;
                text.push(digits[usize::from(byte >> 4)])?;
                text.push(digits[usize::from(byte & 15)])?;
            }
            _ => text.push(byte)?,
        }
    }
    text.extend_from_slice(b"\"")
}
