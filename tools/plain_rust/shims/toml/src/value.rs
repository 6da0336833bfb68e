//! The values of TOML.
use crate::de::Error;
use crate::depth::too_deep;
use heap::format;
use heap::string::ToString;
use rattle_std::alloc::{AllocError, Global};
use rattle_std::collections::BTreeMap;
use rattle_std::string::String;
use rattle_std::vec::Vec;
pub use real::value::Datetime;

pub type Table = BTreeMap<String, Value>;

#[derive(Debug)]
pub enum Value {
    String(String),
    Integer(i64),
    Float(f64),
    Boolean(bool),
    Datetime(Datetime),
    Array(Vec<Value>),
    Table(Table),
}

impl Value {
    /// The value that a text is, with nothing before it and after it. `toml` 0.5 reads whole texts alone. So a value is what may stand both after a key and
    /// in an array: the one has no second line after it, the other no comment.
    pub fn from_str(alloc: Global, text: &str) -> Result<Value, Error> {
        if too_deep(text.as_bytes()).is_some() {
            return Err(Error::no_value());
        }
        let is_bare = text.trim_matches([' ', '\t', '\r', '\n']).len() == text.len();
        match (alone(&format!("it = {text}")), alone(&format!("it = [{text}]"))) {
            (Some(value), Some(_)) if is_bare => made(alloc, value).map_err(|_| Error::memory()),
            _ => Err(Error::no_value()),
        }
    }

    /// The value at a place of an array.
    pub fn get(&self, place: usize) -> Option<&Value> {
        self.as_array()?.get(place)
    }

    pub fn as_str(&self) -> Option<&str> {
        if let Value::String(it) = self { Some(it.as_str()) } else { None }
    }

    pub fn as_integer(&self) -> Option<i64> {
        if let Value::Integer(it) = self { Some(*it) } else { None }
    }

    pub fn as_float(&self) -> Option<f64> {
        if let Value::Float(it) = self { Some(*it) } else { None }
    }

    pub fn as_bool(&self) -> Option<bool> {
        if let Value::Boolean(it) = self { Some(*it) } else { None }
    }

    pub fn as_array(&self) -> Option<&Vec<Value>> {
        if let Value::Array(it) = self { Some(it) } else { None }
    }

    pub fn as_table(&self) -> Option<&Table> {
        if let Value::Table(it) = self { Some(it) } else { None }
    }

    #[allow(clippy::should_implement_trait)]
    pub fn clone(&self) -> Result<Value, AllocError> {
        Ok(match self {
            Value::String(it) => Value::String(String::from_str(Global, it)?),
            Value::Integer(it) => Value::Integer(*it),
            Value::Float(it) => Value::Float(*it),
            Value::Boolean(it) => Value::Boolean(*it),
            Value::Datetime(it) => Value::Datetime(it.to_string().parse().map_err(|_| AllocError)?),
            Value::Array(it) => {
                let mut copy = Vec::with_capacity(Global, it.len())?;
                for value in it {
                    copy.push(value.clone()?)?;
                }
                Value::Array(copy)
            }
            Value::Table(it) => {
                let mut copy = Table::new(Global);
                for (key, value) in it.iter() {
                    copy.insert(String::from_str(Global, key)?, value.clone()?)?;
                }
                Value::Table(copy)
            }
        })
    }
}

/// The value of the only member of a text.
fn alone(text: &str) -> Option<real::Value> {
    match real::from_str(text) {
        Ok(real::Value::Table(mut members)) if members.len() == 1 => members.remove("it"),
        _ => None,
    }
}

/// A value of `toml`'s own type.
fn made(alloc: Global, value: real::Value) -> Result<Value, AllocError> {
    Ok(match value {
        real::Value::String(it) => Value::String(String::from_str(alloc, &it)?),
        real::Value::Integer(it) => Value::Integer(it),
        real::Value::Float(it) => Value::Float(it),
        real::Value::Boolean(it) => Value::Boolean(it),
        real::Value::Datetime(it) => Value::Datetime(it),
        real::Value::Array(it) => {
            let mut values = Vec::with_capacity(alloc, it.len())?;
            for value in it {
                values.push(made(alloc, value)?)?;
            }
            Value::Array(values)
        }
        real::Value::Table(it) => Value::Table(table(alloc, it)?),
    })
}

/// A table of `toml`'s own type.
pub fn table(alloc: Global, table: real::value::Table) -> Result<Table, AllocError> {
    let mut members = Table::new(alloc);
    for (key, value) in table {
        members.insert(String::from_str(alloc, &key)?, made(alloc, value)?)?;
    }
    Ok(members)
}
