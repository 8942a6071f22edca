//! A table with its rows, and the log of its commits.

use crate::tables::{Key, Row, Table, Value};
use std::collections::BTreeMap;
use std::collections::btree_map::Entry;

pub enum Command {
    Insert(Vec<Value>),
    Update(Key, Vec<Value>),
    Delete(Key),
}

pub struct Change {
    pub old: Option<Row>,
    pub new: Option<Row>,
}

pub struct Book {
    pub table: Table,
    pub rows: BTreeMap<Key, Row>,
    pub log: Vec<Vec<Change>>,
}

impl Book {
    fn insert(&mut self, row: Vec<Value>) -> Option<Change> {
        let (key, row) = (self.table.key_of(&row), Row::from(row));
        match self.rows.entry(key) {
            Entry::Occupied(_) => return None,
            Entry::Vacant(place) => place.insert(row.clone()),
        };
        Some(Change { old: None, new: Some(row) })
    }

    fn update(&mut self, key: Key, row: Vec<Value>) -> Option<Change> {
        let (new_key, row) = (self.table.key_of(&row), Row::from(row));
        if new_key != key && self.rows.contains_key(&new_key) {
            return None;
        }
        let old = if new_key == key {
            std::mem::replace(self.rows.get_mut(&key)?, row.clone())
        } else {
            let old = self.rows.remove(&key)?;
            self.rows.insert(new_key, row.clone());
            old
        };
        Some(Change { old: Some(old), new: Some(row) })
    }

    fn change(&mut self, command: Command) -> Option<Change> {
        match command {
            Command::Insert(row) => self.insert(row),
            Command::Update(key, row) => self.update(key, row),
            Command::Delete(key) => self.rows.remove(&key).map(|old| Change { old: Some(old), new: None }),
        }
    }

    fn undo(&mut self, changes: Vec<Change>) {
        for change in changes.into_iter().rev() {
            if let Some(new) = change.new {
                self.rows.remove(&self.table.key_of(&new));
            }
            if let Some(old) = change.old {
                self.rows.insert(self.table.key_of(&old), old);
            }
        }
    }

    /// Makes all commands, or none where one is at fault.
    pub fn commit(&mut self, commands: Vec<Command>) -> bool {
        let mut changes = Vec::with_capacity(commands.len());
        for command in commands {
            match self.change(command) {
                Some(change) => changes.push(change),
                None => {
                    self.undo(changes);
                    return false;
                }
            }
        }
        self.log.push(changes);
        true
    }
}
