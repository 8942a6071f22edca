//! What pgshard's `eval` does with rows, as one would write it in Rust by the standard library and without a proof: rows
//! as SQL are read from standard input, after the line `%%`, and what each publication says of each is written.
//!
//! The words are a family of bench/rows.py, `ranges`, `remainders`, `regions` or `columns`, and how many publications
//! there are.

use std::borrow::Cow;
use std::io::{Read, Write};

/// How many keys the families divide.
const KEYS: i64 = 1_000_000;

enum Cell<'a> {
    Null,
    Int(i64),
    Text(Cow<'a, [u8]>),
}

enum Filter {
    AtLeast(usize, i64),
    Below(usize, i64),
    Remainder(usize, i64, i64),
    Is(usize, String),
    IsNull(usize),
    Not(Box<Filter>),
    And(Vec<Filter>),
    Or(Vec<Filter>),
}

fn int(cell: &Cell, says: impl Fn(i64) -> bool) -> Option<bool> {
    match cell {
        Cell::Int(number) => Some(says(*number)),
        _ => None,
    }
}

/// The first part that says this, or null where one is null, or else the opposite.
fn joined(parts: &[Filter], row: &[Cell], ends: bool) -> Option<bool> {
    let mut said = Some(!ends);
    for part in parts {
        match part.says(row) {
            Some(it) if it == ends => return Some(ends),
            Some(_) => {}
            None => said = None,
        }
    }
    said
}

impl Filter {
    fn says(&self, row: &[Cell]) -> Option<bool> {
        match self {
            Filter::AtLeast(column, bound) => int(&row[*column], |it| it >= *bound),
            Filter::Below(column, bound) => int(&row[*column], |it| it < *bound),
            Filter::Remainder(column, divisor, rest) => int(&row[*column], |it| it % divisor == *rest),
            Filter::Is(column, text) => match &row[*column] {
                Cell::Text(it) => Some(**it == *text.as_bytes()),
                _ => None,
            },
            Filter::IsNull(column) => Some(matches!(row[*column], Cell::Null)),
            Filter::Not(part) => part.says(row).map(|it| !it),
            Filter::And(parts) => joined(parts, row, false),
            Filter::Or(parts) => joined(parts, row, true),
        }
    }
}

// ---- the families

fn ranges(count: i64) -> Vec<Filter> {
    let step = KEYS / count;
    let mut filters = vec![Filter::Below(0, step)];
    for at in 1..count - 1 {
        filters.push(Filter::And(vec![Filter::AtLeast(0, step * at), Filter::Below(0, step * (at + 1))]));
    }
    filters.push(Filter::AtLeast(0, step * (count - 1)));
    filters
}

fn remainders(count: i64) -> Vec<Filter> {
    let mut filters = vec![Filter::Remainder(0, count, 0)];
    for at in 1..count {
        filters.push(Filter::Or(vec![Filter::Remainder(0, count, at), Filter::Remainder(0, count, -at)]));
    }
    filters
}

fn regions_of(at: i64) -> Filter {
    let named = |number| Filter::Is(1, format!("r{number}"));
    Filter::Or(vec![named(2 * at), named(2 * at + 1)])
}

fn regions(count: i64) -> Vec<Filter> {
    let mut filters: Vec<Filter> = (0..count - 1).map(regions_of).collect();
    let others = Filter::Or((0..count - 1).map(regions_of).collect());
    filters.push(Filter::Or(vec![Filter::IsNull(1), Filter::Not(Box::new(others))]));
    filters
}

fn columns(count: i64) -> Vec<Filter> {
    let atom = |at: i64| Filter::AtLeast((at / 8) as usize, at % 8 * 125);
    (0..count).map(|at| Filter::And(vec![atom(at * 13 % 64), atom((at * 29 + 7) % 64)])).collect()
}

// ---- rows

/// What is left of a line.
struct Reader<'a> {
    left: &'a [u8],
}

impl<'a> Reader<'a> {
    /// Whether this byte comes next, which is then read.
    fn reads(&mut self, byte: u8) -> bool {
        let found = self.left.first() == Some(&byte);
        if found {
            self.left = &self.left[1..];
        }
        found
    }

    fn spaces(&mut self) {
        while self.reads(b' ') {}
    }

    /// The text up to its closing quote, with each pair of quotes as one.
    fn text(&mut self) -> Option<Cow<'a, [u8]>> {
        let end = self.left.iter().position(|it| *it == b'\'')?;
        let plain = &self.left[..end];
        self.left = &self.left[end + 1..];
        if !self.reads(b'\'') {
            return Some(plain.into());
        }
        Some([plain, b"'", &self.text()?[..]].concat().into())
    }

    fn number(&mut self) -> Option<i64> {
        let is_negative = self.reads(b'-');
        let (mut number, before) = (0i64, self.left.len());
        while let [digit @ b'0'..=b'9', left @ ..] = self.left {
            number = number.checked_mul(10)?.checked_add(i64::from(digit - b'0'))?;
            self.left = left;
        }
        (self.left.len() < before).then_some(if is_negative { -number } else { number })
    }

    fn cell(&mut self) -> Option<Cell<'a>> {
        if self.reads(b'\'') {
            return Some(Cell::Text(self.text()?));
        }
        if let Some(left) = self.left.strip_prefix(b"NULL") {
            self.left = left;
            return Some(Cell::Null);
        }
        Some(Cell::Int(self.number()?))
    }
}

fn read_row<'a>(line: &'a [u8], row: &mut Vec<Cell<'a>>) -> Option<()> {
    row.clear();
    let mut reader = Reader { left: line };
    reader.spaces();
    if !reader.reads(b'(') {
        return None;
    }
    loop {
        reader.spaces();
        row.push(reader.cell()?);
        reader.spaces();
        if !reader.reads(b',') {
            return (reader.left == b")").then_some(());
        }
    }
}

/// A filter, and what is written where it is false, true or null.
struct Publication {
    filter: Filter,
    answers: [Vec<u8>; 3],
}

impl Publication {
    fn new(at: usize, filter: Filter) -> Publication {
        Publication { filter, answers: ["false", "true", "null"].map(|it| format!("p{at}={it} ").into_bytes()) }
    }

    fn put_answer(&self, row: &[Cell], out: &mut Vec<u8>) {
        out.extend_from_slice(&self.answers[self.filter.says(row).map_or(2, usize::from)]);
    }
}

fn put_answers(publications: &[Publication], row: &[Cell], out: &mut Vec<u8>) {
    publications.iter().for_each(|it| it.put_answer(row, out));
    out.pop();
    out.push(b'\n');
}

fn main() {
    let words: Vec<String> = std::env::args().skip(1).collect();
    let count = words[1].parse().expect("a number");
    let filters = match words[0].as_str() {
        "ranges" => ranges(count),
        "remainders" => remainders(count),
        "columns" => columns(count),
        _ => regions(count),
    };
    let publications: Vec<_> = filters.into_iter().enumerate().map(|(at, it)| Publication::new(at, it)).collect();
    let (mut text, mut out) = (String::new(), Vec::new());
    std::io::stdin().read_to_string(&mut text).expect("an input");
    let (_, lines) = text.split_once("\n%%\n").expect("rows");
    let lines = lines.strip_suffix('\n').unwrap_or(lines);
    let mut row = Vec::new();
    for line in lines.as_bytes().split(|it| *it == b'\n') {
        match read_row(line, &mut row) {
            Some(()) => put_answers(&publications, &row, &mut out),
            None => out.extend_from_slice(b"unreadable\n"),
        }
    }
    std::io::stdout().write_all(&out).expect("an output");
}
