//! What the book, the sender and the subscriber of pgshard do, as one would write it in Rust by the standard library and
//! without a proof: commits on a table and its log, the frames of the messages that tell each slot of its rows, and a
//! subscriber that applies them. Any table and any filters fit, as they do there.
//!
//! The words are deed, identity, rows in a commit, slots, bytes of a text, rows, rows before, and the last phase that is
//! made: `made`, `committed`, `taken` or `delivered`. After the word `held` it keeps the book for a while. With the words `messages`, bytes, times and `made`, `encoded` or
//! `decoded` it writes or reads an Insert message again and again.

mod book;
mod sender;
mod subscriber;
mod tables;

use book::{Book, Command};
use sender::{Routes, Slot, put_insert, take};
use std::collections::BTreeMap;
use subscriber::{Reader, Shape, Subscriber, read_tuple};
use tables::{Column, Filter, Key, Table, Value};

struct Load {
    deed: String,
    full: bool,
    in_a_commit: usize,
    slots: usize,
    text: usize,
    rows: usize,
    before: usize,
    last_phase: String,
    is_held: bool,
}

impl Load {
    fn all_rows(&self) -> usize {
        if self.deed == "insert" { self.before + self.rows } else { self.before.max(self.rows) }
    }

    fn key(&self, place: usize) -> i64 {
        (place as u64 * 2_654_435_761 % self.all_rows() as u64) as i64
    }

    fn row(&self, key: i64, letter: &str) -> Vec<Value> {
        vec![Value::Int(key), Value::Text(letter.repeat(self.text).into())]
    }

    fn command(&self, deed: &str, place: usize) -> Command {
        let key = self.key(place);
        match deed {
            "insert" => Command::Insert(self.row(key, "i")),
            "update" => Command::Update(Key::One(key), self.row(key, "u")),
            _ => Command::Delete(Key::One(key)),
        }
    }

    fn commits(&self, deed: &str, first: usize, end: usize, size: usize) -> Vec<Vec<Command>> {
        let starts = (first..end).step_by(size);
        starts.map(|it| (it..end.min(it + size)).map(|place| self.command(deed, place)).collect()).collect()
    }

    fn slot(&self, at: usize) -> Slot {
        let bound = |at| (at * self.all_rows() / self.slots) as i64;
        let mut parts = Vec::new();
        if at > 0 {
            parts.push(Filter::AtLeast(0, bound(at)));
        }
        if at + 1 < self.slots {
            parts.push(Filter::Below(0, bound(at + 1)));
        }
        Slot { filter: Filter::And(parts), relation_sent: false, is_begun: false, out: Vec::new() }
    }

    fn reaches(&self, phase: &str) -> bool {
        let order = ["made", "committed", "taken", "delivered"];
        order.iter().position(|it| *it == phase) <= order.iter().position(|it| *it == self.last_phase)
    }
}

/// Takes the commits of the log from this one on, and delivers what is said, as far as the phase goes.
fn pass_on(book: &Book, first: usize, slots: &mut [Slot], subscribers: &mut [Subscriber], delivers: bool) {
    let routes = Routes::new(slots, 0);
    for (at, changes) in book.log.iter().enumerate().skip(first) {
        take(slots, &routes, &book.table, at as u64 + 1, changes);
    }
    if delivers {
        for (slot, subscriber) in slots.iter_mut().zip(subscribers) {
            subscriber.feed(&slot.out).expect("a stream that is read");
            slot.out = Vec::new();
        }
    }
}

fn run(load: &Load) {
    let columns = vec![
        Column { name: "id", oid: 23, in_key: true },
        Column { name: "region", oid: 25, in_key: false },
    ];
    let mut book = Book { table: Table { columns, full: load.full }, rows: BTreeMap::new(), log: Vec::new() };
    let mut slots: Vec<Slot> = (0..load.slots).map(|at| load.slot(at)).collect();
    let mut subscribers: Vec<Subscriber> = slots.iter().map(|_| Subscriber::default()).collect();
    let before = if load.deed == "insert" { load.before } else { load.all_rows() };
    for commands in load.commits("insert", 0, before, 1_000) {
        assert!(book.commit(commands));
    }
    pass_on(&book, 0, &mut slots, &mut subscribers, true);
    let done = book.log.len();
    let first = if load.deed == "insert" { before } else { 0 };
    for commands in load.commits(&load.deed, first, first + load.rows, load.in_a_commit) {
        if load.reaches("committed") {
            assert!(book.commit(commands));
        }
    }
    if load.reaches("taken") {
        pass_on(&book, done, &mut slots, &mut subscribers, load.reaches("delivered"));
    }
    let held: usize = subscribers.iter().map(|it| it.rows.len()).sum();
    let turns: u64 = if load.is_held { 1_000_000 } else { 0 };
    let spent: u64 = (0..turns).map(|turn| *std::hint::black_box(Box::new(turn))).sum();
    println!("{} rows, {held} at subscribers, {spent}", book.rows.len());
    // what the rows would take to be given back does not count
    std::process::exit(0);
}

fn run_messages(bytes: usize, times: usize, last_phase: &str) {
    let row = vec![Value::Int(1_234_567), Value::Text("i".repeat(bytes).into())];
    let shapes = [Shape { in_key: true, is_text: false }, Shape { in_key: false, is_text: true }];
    let (mut out, mut read) = (Vec::new(), 0);
    for _ in 0..if last_phase == "made" { 1 } else { times } {
        out.clear();
        put_insert(&row, &mut out);
    }
    for _ in 0..if last_phase == "decoded" { times } else { 0 } {
        let mut reader = Reader { left: &out[6..] };
        read += read_tuple(&mut reader, &shapes).map_or(0, |it| it.len());
    }
    println!("{} bytes, {read} values", out.len());
}

fn main() {
    let mut words: Vec<String> = std::env::args().skip(1).collect();
    let is_held = words[0] == "held";
    words.drain(..usize::from(is_held));
    let number = |at: usize| words[at].parse().expect("a number");
    if words[0] == "messages" {
        return run_messages(number(1), number(2), &words[3]);
    }
    run(&Load {
        deed: words[0].clone(),
        full: words[1] == "FULL",
        in_a_commit: number(2),
        slots: number(3),
        text: number(4),
        rows: number(5),
        before: number(6),
        last_phase: words[7].clone(),
        is_held,
    });
}
