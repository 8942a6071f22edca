//! The frames of the messages that tell a slot of commits.

use crate::book::Change;
use crate::tables::{Filter, Row, Table, Value, number};

fn put_digits(number: i64, out: &mut Vec<u8>) {
    let mut digits = [0; 20];
    let (mut at, mut left) = (20, number.unsigned_abs());
    loop {
        at -= 1;
        digits[at] = b'0' + (left % 10) as u8;
        left /= 10;
        if left == 0 {
            break;
        }
    }
    let minus = usize::from(number < 0);
    out.push(b't');
    out.extend_from_slice(&((20 - at + minus) as u32).to_be_bytes());
    out.extend_from_slice(&b"-"[..minus]);
    out.extend_from_slice(&digits[at..]);
}

fn put_tuple<'a>(row: impl ExactSizeIterator<Item = &'a Value>, out: &mut Vec<u8>) {
    out.extend_from_slice(&(row.len() as u16).to_be_bytes());
    for value in row {
        match value {
            Value::Null => out.push(b'n'),
            Value::Int(number) => put_digits(*number, out),
            Value::Text(text) => {
                out.push(b't');
                out.extend_from_slice(&(text.len() as u32).to_be_bytes());
                out.extend_from_slice(text.as_bytes());
            }
        }
    }
}

pub fn put_insert(row: &[Value], out: &mut Vec<u8>) {
    out.extend_from_slice(b"I\0\0\x40\0N");
    put_tuple(row.iter(), out);
}

/// The old part of a message: the whole row, or its key with nulls for the other columns.
fn put_old(table: &Table, old: &[Value], out: &mut Vec<u8>) {
    if table.full {
        out.push(b'O');
        put_tuple(old.iter(), out);
        return;
    }
    out.push(b'K');
    put_tuple(table.columns.iter().zip(old).map(|(it, value)| if it.in_key { value } else { &Value::Null }), out);
}

fn put_update(table: &Table, old: &[Value], new: &[Value], out: &mut Vec<u8>) {
    out.extend_from_slice(b"U\0\0\x40\0");
    if table.full || table.keys_differ(old, new) {
        put_old(table, old, out);
    }
    out.push(b'N');
    put_tuple(new.iter(), out);
}

fn put_delete(table: &Table, old: &[Value], out: &mut Vec<u8>) {
    out.extend_from_slice(b"D\0\0\x40\0");
    put_old(table, old, out);
}

fn put_relation(table: &Table, out: &mut Vec<u8>) {
    out.extend_from_slice(b"R\0\0\x40\0public\0t\0");
    out.push(if table.full { b'f' } else { b'd' });
    out.extend_from_slice(&(table.columns.len() as u16).to_be_bytes());
    for column in &table.columns {
        out.push(u8::from(column.in_key || table.full));
        out.extend_from_slice(column.name.as_bytes());
        out.push(0);
        out.extend_from_slice(&column.oid.to_be_bytes());
        out.extend_from_slice(&(-1i32).to_be_bytes());
    }
}

fn frame(position: u64, out: &mut Vec<u8>, put: impl FnOnce(&mut Vec<u8>)) {
    let start = out.len();
    out.extend_from_slice(b"d\0\0\0\0w");
    out.extend_from_slice(&position.to_be_bytes());
    out.extend_from_slice(&position.to_be_bytes());
    out.extend_from_slice(&1u64.to_be_bytes());
    put(out);
    let length = (out.len() - start - 1) as u32;
    out[start + 1..start + 5].copy_from_slice(&length.to_be_bytes());
}

pub struct Slot {
    pub filter: Filter,
    pub relation_sent: bool,
    pub is_begun: bool,
    pub out: Vec<u8>,
}

impl Slot {
    fn begin(&mut self, table: &Table, position: u64) {
        frame(position, &mut self.out, |out| {
            out.push(b'B');
            out.extend_from_slice(&position.to_be_bytes());
            out.extend_from_slice(&[0; 12]);
        });
        if !self.relation_sent {
            frame(position, &mut self.out, |out| put_relation(table, out));
        }
        self.relation_sent = true;
        self.is_begun = true;
    }

    /// The frame of a change, after those that begin its commit.
    fn tell(&mut self, table: &Table, position: u64, put: impl FnOnce(&mut Vec<u8>)) {
        if !self.is_begun {
            self.begin(table, position);
        }
        frame(position, &mut self.out, put);
    }

    fn end(&mut self, position: u64) {
        if !std::mem::take(&mut self.is_begun) {
            return;
        }
        frame(position, &mut self.out, |out| {
            out.extend_from_slice(b"C\0");
            out.extend_from_slice(&position.to_be_bytes());
            out.extend_from_slice(&(position + 64).to_be_bytes());
            out.extend_from_slice(&[0; 8]);
        });
    }
}

/// The slots by a column: those whose filters are true from one constant of all filters to the next.
pub struct Routes {
    column: usize,
    bounds: Vec<i64>,
    owners: Vec<Option<usize>>,
}

impl Routes {
    /// Of slots whose filters name no other column.
    pub fn new(slots: &[Slot], column: usize) -> Routes {
        let mut bounds: Vec<i64> = slots.iter().flat_map(|it| it.filter.bounds()).collect();
        bounds.sort_unstable();
        bounds.dedup();
        let owner = |number: i64| {
            let row = vec![Value::Int(number); column + 1];
            slots.iter().position(|it| it.filter.passes(&row))
        };
        let owners = std::iter::once(i64::MIN).chain(bounds.iter().copied()).map(owner).collect();
        Routes { column, bounds, owners }
    }

    /// The slot that gets a row, and the row.
    fn owner<'a>(&self, row: &'a Option<Row>) -> Option<(usize, &'a [Value])> {
        let row = row.as_deref()?;
        let value = number(&row[self.column])?;
        Some((self.owners[self.bounds.partition_point(|it| *it <= value)]?, row))
    }
}

/// Tells a commit to the slots that get something of it. Each row is looked up once for all slots.
pub fn take(slots: &mut [Slot], routes: &Routes, table: &Table, number: u64, changes: &[Change]) {
    let position = 64 * number;
    for change in changes {
        match (routes.owner(&change.old), routes.owner(&change.new)) {
            (Some((from, old)), Some((to, new))) if from == to => {
                slots[to].tell(table, position, |out| put_update(table, old, new, out));
            }
            (old, new) => {
                if let Some((from, old)) = old {
                    slots[from].tell(table, position, |out| put_delete(table, old, out));
                }
                if let Some((to, new)) = new {
                    slots[to].tell(table, position, |out| put_insert(new, out));
                }
            }
        }
    }
    slots.iter_mut().for_each(|it| it.end(position));
}
