//! rustc -O tools/floor.rs, then `floor SCRIPT`: does what a script says on plain maps and vectors, and prints what jdoc prints.
//! It keeps the last value of a key by its id, and operations as they were written, but neither conflicts nor what a delete has seen.
//! It knows the steps that tools/measure.py writes: push, step, hello, bundle, deliver, and questions for keys and items.
//! It reads lines with a parser of its own, which knows no escapes, or, with `--cfg serde` and that library, with serde_json.
use std::collections::{BTreeMap, VecDeque};
use std::fmt::Write as _;
use std::io::{BufRead, BufReader, BufWriter, Write};

#[cfg(serde)]
mod json {
    pub use serde_json::Value as Json;

    pub fn parse(line: &[u8]) -> Json {
        serde_json::from_slice(line).unwrap()
    }
}

#[cfg(not(serde))]
mod json {
    #[derive(Clone, Debug)]
    pub enum Json {
        Int(i64),
        Text(String),
        List(Vec<Json>),
        Map,
    }

    impl Json {
        pub fn as_i64(&self) -> Option<i64> {
            match self {
                Json::Int(number) => Some(*number),
                _ => None,
            }
        }

        pub fn as_str(&self) -> Option<&str> {
            match self {
                Json::Text(text) => Some(text),
                _ => None,
            }
        }

        pub fn as_array(&self) -> Option<&Vec<Json>> {
            match self {
                Json::List(list) => Some(list),
                _ => None,
            }
        }
    }

    pub fn parse(line: &[u8]) -> Json {
        value(&mut &line[..])
    }

    /// Reads a value, and leaves what comes after it.
    fn value(rest: &mut &[u8]) -> Json {
        match rest[0] {
            b'[' => {
                *rest = &rest[1..];
                let mut list = Vec::new();
                while rest[0] != b']' {
                    if rest[0] == b',' {
                        *rest = &rest[1..];
                    }
                    list.push(value(rest));
                }
                *rest = &rest[1..];
                Json::List(list)
            }
            b'{' => {
                *rest = &rest[2..];
                Json::Map
            }
            b'"' => {
                let end = rest[1..].iter().position(|byte| *byte == b'"').unwrap() + 1;
                let text = String::from_utf8(rest[1..end].to_vec()).unwrap();
                *rest = &rest[end + 1..];
                Json::Text(text)
            }
            _ => {
                let end = rest.iter().position(|byte| !matches!(byte, b'-' | b'0'..=b'9')).unwrap();
                let number = std::str::from_utf8(&rest[..end]).unwrap().parse().unwrap();
                *rest = &rest[end..];
                Json::Int(number)
            }
        }
    }
}

use json::{Json, parse};

fn int(value: &Json) -> i64 {
    value.as_i64().unwrap()
}

fn text(value: &Json) -> &str {
    value.as_str().unwrap()
}

fn list(value: &Json) -> &[Json] {
    value.as_array().unwrap()
}

type Id = (u64, u64);

/// What is at a key.
#[derive(Default)]
struct Node {
    value: Option<(Id, Json)>,
    fields: BTreeMap<String, Node>,
    items: Vec<(Id, Json)>,
}

/// A command, with the id under which it was made.
type Op = (Id, Json);

/// A queued submission.
enum Item {
    Command(Json),
    Peer(Op),
}

#[derive(Default)]
struct Engine {
    own: u64,
    document: Node,
    log: Vec<Op>,
    /// The greatest counter of each replica.
    seen: BTreeMap<u64, u64>,
    queue: VecDeque<Item>,
    serial: usize,
    batch: usize,
}

impl Engine {
    fn submit(&mut self, item: Item) -> usize {
        self.queue.push_back(item);
        self.serial += 1;
        self.serial
    }

    fn step(&mut self) -> usize {
        let count = self.queue.len().min(self.batch);
        for item in self.queue.drain(..count).collect::<Vec<_>>() {
            let op = self.op(item);
            apply(&mut self.document, &op);
            let greatest = self.seen.entry(op.0.1).or_default();
            *greatest = (*greatest).max(op.0.0);
            self.log.push(op);
        }
        count
    }

    /// The operation of a peer, or the one that a command makes.
    fn op(&self, item: Item) -> Op {
        match item {
            Item::Command(command) => ((self.seen.values().max().map_or(1, |greatest| greatest + 1), self.own), command),
            Item::Peer(op) => op,
        }
    }
}

fn apply(document: &mut Node, op: &Op) {
    let (id, command) = (op.0, list(&op.1));
    let path = list(&command[1]);
    let (last, way) = path.split_last().unwrap();
    let mut at = document;
    for key in way {
        at = at.fields.entry(text(key).to_owned()).or_default();
    }
    match (text(&command[0]), last) {
        ("insert", index) => at.items.insert(int(index) as usize, (id, command[2].clone())),
        ("assign", key) => {
            let node = at.fields.entry(text(key).to_owned()).or_default();
            if node.value.as_ref().is_none_or(|(old, _)| *old < id) {
                node.value = Some((id, command[2].clone()));
            }
        }
        ("delete", key) => {
            at.fields.remove(text(key));
        }
        _ => panic!("another command"),
    }
}

fn engine(row: &Json) -> Engine {
    let row = list(row);
    Engine {
        own: int(&row[0]) as u64,
        batch: int(&row[5]) as usize,
        ..Engine::default()
    }
}

fn pairs(ids: impl Iterator<Item = Id>) -> String {
    let mut text = String::from("[");
    for (a, b) in ids {
        let comma = if text.len() > 1 { "," } else { "" };
        write!(text, "{comma}[{a},{b}]").unwrap();
    }
    text.push(']');
    text
}

fn answer(engine: &Engine, question: &[Json]) -> String {
    let path = list(&question[1]);
    let at = path.iter().fold(&engine.document, |at, key| &at.fields[text(key)]);
    match text(&question[0]) {
        "keys" => {
            let keys: Vec<String> = at.fields.keys().map(|key| format!("\"{key}\"")).collect();
            format!("[{}]", keys.join(","))
        }
        "items" => pairs(at.items.iter().map(|(id, _)| *id)),
        _ => panic!("another question"),
    }
}

enum Message {
    Hello(BTreeMap<u64, u64>),
    Bundle(Vec<Op>),
}

fn main() {
    let file = std::fs::File::open(std::env::args().nth(1).unwrap()).unwrap();
    let mut out = BufWriter::new(std::io::stdout().lock());
    let mut lines = BufReader::new(file).split(b'\n').map(|line| parse(&line.unwrap()));
    let world = lines.next().unwrap();
    let mut engines: Vec<Engine> = list(&list(&world)[1]).iter().map(engine).collect();
    let mut messages = Vec::new();
    for line in lines {
        let step = list(&line);
        let engine = &mut engines[int(&step[1]) as usize];
        match text(&step[0]) {
            "push" => writeln!(out, "[\"ticket\",{}]", engine.submit(Item::Command(step[3].clone()))),
            "step" => match engine.step() {
                0 => writeln!(out, "[\"idle\"]"),
                count => writeln!(out, "[\"published\",{count}]"),
            },
            "hello" => {
                messages.push(Message::Hello(engine.seen.clone()));
                let vector = pairs(engine.seen.iter().map(|(replica, counter)| (*replica, *counter)));
                writeln!(out, "[\"message\",{},{vector}]", messages.len() - 1)
            }
            "bundle" => {
                let Message::Hello(seen) = &messages[int(&step[3]) as usize] else { panic!("no hello") };
                let lacks = |op: &&Op| seen.get(&op.0.1).is_none_or(|counter| *counter < op.0.0);
                let bundle: Vec<Op> = engine.log.iter().filter(lacks).cloned().collect();
                let count = bundle.len();
                messages.push(Message::Bundle(bundle));
                writeln!(out, "[\"message\",{},{count}]", messages.len() - 1)
            }
            "deliver" => {
                let Message::Bundle(bundle) = &messages[int(&step[3]) as usize] else { panic!("no bundle") };
                let first = if bundle.is_empty() { 0 } else { engine.serial + 1 };
                for op in bundle {
                    engine.submit(Item::Peer(op.clone()));
                }
                writeln!(out, "[\"received\",{first},{}]", bundle.len())
            }
            "ask" => {
                let length = engine.log.len();
                writeln!(out, "[\"reading\",{length},{}]", answer(engine, list(&step[3])))
            }
            _ => panic!("another step"),
        }
        .unwrap();
    }
}
