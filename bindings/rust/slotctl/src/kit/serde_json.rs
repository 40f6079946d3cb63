//! Values of JSON that own their texts, in the place of the kit's `serde_json`. The original asks for memory by calls that do
//! not fail, so this reads by `json`. The tests hold both against each other.

use super::alloc::{AllocError, Global};
use super::json::{self, Error, Scratch};
use super::{String, Vec};

/// A value.
pub enum Value {
    /// `null`, `true`, `false` or an array, which no record has.
    Other,
    /// A number, as it is written.
    Number(String),
    /// A text.
    String(String),
    /// Values with names.
    Object(Map),
}

/// Values with names, each name once.
pub struct Map {
    members: Vec<(String, Value)>,
}

impl Map {
    /// `len`: how many names there are.
    pub fn len(&self) -> usize {
        self.members.len()
    }

    fn insert(&mut self, name: String, value: Value) -> Result<(), AllocError> {
        match self.members.iter_mut().find(|member| *member.0 == *name) {
            Some(member) => member.1 = value,
            None => self.members.push((name, value))?,
        }
        Ok(())
    }
}

impl Value {
    /// `from_slice`: the value of a text in UTF-8.
    ///
    /// # Errors
    ///
    /// `Invalid` where it is none, or `OutOfMemory`.
    pub fn from_slice(alloc: Global, bytes: &[u8]) -> Result<Value, Error> {
        let mut scratch = Scratch::new(alloc);
        let value = json::Value::from_slice(alloc, bytes, &mut scratch)?;
        owned(alloc, &value)
    }

    /// `get`: the value of a name.
    pub fn get(&self, name: &str) -> Option<&Value> {
        let found = self.as_object()?.members.iter().find(|it| *it.0 == *name)?;
        Some(&found.1)
    }

    /// `as_object`: the values with names.
    pub fn as_object(&self) -> Option<&Map> {
        match self {
            Value::Object(members) => Some(members),
            _ => None,
        }
    }

    /// `as_str`: the text.
    pub fn as_str(&self) -> Option<&str> {
        match self {
            Value::String(text) => Some(text),
            _ => None,
        }
    }

    /// `as_u64`: the number, where it is written with digits alone and fits.
    pub fn as_u64(&self) -> Option<u64> {
        match self {
            Value::Number(text) => text.parse().ok(),
            _ => None,
        }
    }
}

/// Whether a number has a value among the floats, without which the original reads none.
fn has_value(number: &str) -> bool {
    number.parse::<f64>().is_ok_and(f64::is_finite)
}

/// A copy that borrows nothing.
fn owned(alloc: Global, value: &json::Value<'_>) -> Result<Value, Error> {
    Ok(match value {
        json::Value::Number(text) if !has_value(text) => return Err(Error::Invalid),
        json::Value::Number(text) => Value::Number(String::from_str(alloc, text)?),
        json::Value::String(text) => Value::String(String::from_str(alloc, text)?),
        json::Value::Object(members) => {
            let mut made = Map {
                members: Vec::with_capacity(alloc, members.len())?,
            };
            for (name, value) in members {
                made.insert(String::from_str(alloc, name)?, owned(alloc, value)?)?;
            }
            Value::Object(made)
        }
        json::Value::Array(items) => {
            for item in items {
                owned(alloc, item)?;
            }
            Value::Other
        }
        _ => Value::Other,
    })
}
