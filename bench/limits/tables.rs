//! Rows, tables and the filters of publications.

use std::sync::Arc;

#[derive(Clone, PartialEq, Eq, PartialOrd, Ord, Debug)]
pub enum Value {
    Null,
    Int(i64),
    Text(Box<str>),
}

pub type Row = Arc<[Value]>;

/// The values by which a row is found: most keys are one number, and under FULL it is the row.
#[derive(PartialEq, Eq, PartialOrd, Ord)]
pub enum Key {
    One(i64),
    Some(Vec<Value>),
    Whole(Row),
}

impl Key {
    /// The values of those columns that are in the key.
    pub fn of<'a>(values: impl Iterator<Item = (bool, &'a Value)> + Clone) -> Key {
        let mut found = values.filter(|(in_key, _)| *in_key).map(|(_, value)| value);
        match (found.clone().nth(1), found.clone().next()) {
            (None, Some(Value::Int(number))) => Key::One(*number),
            (None, Some(value)) => Key::Some(vec![value.clone()]),
            _ => Key::Some(found.by_ref().cloned().collect()),
        }
    }
}

pub struct Column {
    pub name: &'static str,
    pub oid: u32,
    pub in_key: bool,
}

pub struct Table {
    pub columns: Vec<Column>,
    pub full: bool,
}

impl Table {
    pub fn key_of(&self, row: &[Value]) -> Key {
        Key::of(self.columns.iter().map(|it| it.in_key).zip(row))
    }

    pub fn keys_differ(&self, old: &[Value], new: &[Value]) -> bool {
        self.columns.iter().zip(old.iter().zip(new)).any(|(it, (old, new))| it.in_key && old != new)
    }
}

pub enum Filter {
    AtLeast(usize, i64),
    Below(usize, i64),
    And(Vec<Filter>),
}

impl Filter {
    /// What the filter says of a row; nothing where it is null.
    pub fn says(&self, row: &[Value]) -> Option<bool> {
        match self {
            Filter::AtLeast(column, bound) => number(&row[*column]).map(|it| it >= *bound),
            Filter::Below(column, bound) => number(&row[*column]).map(|it| it < *bound),
            Filter::And(parts) => parts.iter().try_fold(true, |all, part| match part.says(row) {
                Some(said) => Some(all && said),
                None => None,
            }),
        }
    }

    /// The constants that it names.
    pub fn bounds(&self) -> Vec<i64> {
        match self {
            Filter::AtLeast(_, bound) | Filter::Below(_, bound) => vec![*bound],
            Filter::And(parts) => parts.iter().flat_map(Filter::bounds).collect(),
        }
    }

    pub fn passes(&self, row: &[Value]) -> bool {
        self.says(row) == Some(true)
    }
}

pub fn number(value: &Value) -> Option<i64> {
    match value {
        Value::Int(number) => Some(*number),
        _ => None,
    }
}
