//! A subscriber, which applies what it hears at each Commit.

use crate::tables::{Key, Row, Value};
use std::collections::BTreeMap;

pub struct Reader<'a> {
    pub left: &'a [u8],
}

impl<'a> Reader<'a> {
    fn bytes(&mut self, count: usize) -> Option<&'a [u8]> {
        let (found, left) = self.left.split_at_checked(count)?;
        self.left = left;
        Some(found)
    }

    fn byte(&mut self) -> Option<u8> {
        self.bytes(1).map(|it| it[0])
    }

    fn int16(&mut self) -> Option<usize> {
        self.bytes(2).map(|it| u16::from_be_bytes([it[0], it[1]]) as usize)
    }

    fn int32(&mut self) -> Option<u32> {
        self.bytes(4).map(|it| u32::from_be_bytes([it[0], it[1], it[2], it[3]]))
    }

    fn name(&mut self) -> Option<&'a [u8]> {
        let end = self.left.iter().position(|it| *it == 0)?;
        let name = self.bytes(end);
        self.bytes(1)?;
        name
    }
}

pub struct Shape {
    pub in_key: bool,
    pub is_text: bool,
}

fn read_relation(reader: &mut Reader) -> Option<Vec<Shape>> {
    reader.int32()?;
    reader.name()?;
    reader.name()?;
    reader.byte()?;
    let count = reader.int16()?;
    let mut shapes = Vec::with_capacity(count);
    for _ in 0..count {
        let in_key = reader.byte()? == 1;
        reader.name()?;
        let is_text = reader.int32()? == 25;
        reader.int32()?;
        shapes.push(Shape { in_key, is_text });
    }
    Some(shapes)
}

fn read_value(reader: &mut Reader, is_text: bool) -> Option<Value> {
    if reader.byte()? == b'n' {
        return Some(Value::Null);
    }
    let length = reader.int32()? as usize;
    let text = std::str::from_utf8(reader.bytes(length)?).ok()?;
    Some(if is_text { Value::Text(text.into()) } else { Value::Int(text.parse().ok()?) })
}

pub fn read_tuple(reader: &mut Reader, shapes: &[Shape]) -> Option<Vec<Value>> {
    if reader.int16()? != shapes.len() {
        return None;
    }
    let mut values = Vec::with_capacity(shapes.len());
    for shape in shapes {
        values.push(read_value(reader, shape.is_text)?);
    }
    Some(values)
}

#[derive(Default)]
pub struct Subscriber {
    shapes: Vec<Shape>,
    pub rows: BTreeMap<Key, Row>,
    staged: Vec<(Option<Key>, Option<Row>)>,
}

impl Subscriber {
    fn key_of(&self, row: &Row) -> Key {
        if self.shapes.iter().all(|it| it.in_key) {
            return Key::Whole(row.clone());
        }
        Key::of(self.shapes.iter().map(|it| it.in_key).zip(row.iter()))
    }

    /// Reads Insert, Update or Delete, whose kind is read already.
    fn stage(&mut self, reader: &mut Reader) -> Option<()> {
        reader.int32()?;
        let (mut old, mut new) = (None, None);
        while let Some(part) = reader.byte() {
            let row = Row::from(read_tuple(reader, &self.shapes)?);
            match part {
                b'N' => new = Some(row),
                _ => old = Some(self.key_of(&row)),
            }
        }
        self.staged.push((old, new));
        Some(())
    }

    fn apply(&mut self) -> Option<()> {
        for (old, new) in std::mem::take(&mut self.staged) {
            if let Some(old) = old {
                self.rows.remove(&old)?;
            }
            if let Some(new) = new {
                self.rows.insert(self.key_of(&new), new);
            }
        }
        Some(())
    }

    fn hear(&mut self, message: &[u8]) -> Option<()> {
        let mut reader = Reader { left: message };
        match reader.byte()? {
            b'B' => Some(()),
            b'R' => read_relation(&mut reader).map(|shapes| self.shapes = shapes),
            b'C' => self.apply(),
            _ => self.stage(&mut reader),
        }
    }

    pub fn feed(&mut self, piece: &[u8]) -> Option<()> {
        let mut reader = Reader { left: piece };
        while !reader.left.is_empty() {
            reader.byte()?;
            let length = reader.int32()? as usize;
            let frame = reader.bytes(length - 4)?;
            self.hear(&frame[25..])?;
        }
        Some(())
    }
}
