//! What `palm_bench` and `palm` do, on an ordinary map, for `bench/run`. A `BTreeMap` takes the calls one by one.
//!
//!     map KIND COUNT BATCH WORKERS    makes the calls of `palm_bench`, and prints its line
//!     map gen CALLS SEED              makes the calls of `palm gen`, and prints its lines
//!     map replay BATCH                does what `palm replay --batch BATCH` does with a good script without dumps
//!     map deck                        does what `palm deck` does: applies the deck on standard input, and writes the table as one
//!
//! It prints 0 levels. BATCH and WORKERS change nothing. A deck is split at its commas, and quotes around a field are dropped.
//!
//! Build it with `rustc -O bench/map.rs`. The calls of `palm_bench` are those of crates/palm_bench/src/feed.rt.

use std::collections::BTreeMap;
use std::env;
use std::io::{self, BufWriter, Write};
use std::process::ExitCode;

/// The number of nine digits from which prefixes are counted.
const FIRST: u64 = 100_000_000;

/// How many neighbouring prefixes are edited one after another.
const RUN: u64 = 16;

/// The greatest number of calls of a run, so that all its prefixes have nine digits.
const MOST_COUNT: u64 = 100_000_000;

/// How many rows a List shows at most, and how far the last prefix of a narrow one is from its first.
const LISTED: usize = 8;
const NARROW: u64 = 16;

/// The numbers of nine digits, counted from `FIRST`, that nested prefixes begin.
const NUMBERS: u64 = 900_000_000;

/// Packed keys of prefixes to rates.
type Table = BTreeMap<u64, u64>;

#[derive(Clone, Copy, PartialEq, Eq)]
enum Kind {
    Load,
    Sets,
    Edits,
    Gets,
    Rates,
    Nested,
    Narrow,
    Wide,
    Looks,
    Half,
}

enum Call {
    Set(u64, u64),
    Del(u64),
    Get(u64),
    Rate(u64),
    List(u64, u64, usize),
}

enum Reply {
    New,
    Was(u64),
    Gone(u64),
    Absent,
    Value(u64),
    Hit(u64, u64),
    Rows(Vec<(u64, u64)>),
}

/// A linear congruential generator.
struct Random {
    state: u64,
}

/// Makes the calls of a kind.
struct Feed {
    kind: Kind,
    span: u64,
    made: u64,
    random: Random,
    start: u64,
    nested: bool,
}

/// The packed key of a prefix, a number that is written with so many digits: a group of four bits for each from the top, and in
/// the lowest group how many they are.
fn key_of(number: u64, digits: u32) -> u64 {
    let mut rest = number;
    let mut key = u64::from(digits);
    for place in (0..digits).rev() {
        key |= (rest % 10) << (60 - 4 * place);
        rest /= 10;
    }
    key
}

/// The key of the first digits of a prefix, so many of them.
fn front(key: u64, digits: u32) -> u64 {
    let rest = 64 - 4 * digits;
    key >> rest << rest | u64::from(digits)
}

/// The digits of the prefix with this key.
fn digits_of(key: u64) -> String {
    (0..key % 16)
        .map(|place| char::from(b'0' + (key >> (60 - 4 * place) & 15) as u8))
        .collect()
}

/// How many digits two keys have in common at their front, at most so many.
fn common(left: u64, right: u64, most: u32) -> u32 {
    ((left ^ right).leading_zeros() / 4).min(most)
}

/// The row of the longest prefix that begins a number. Where the last key up to a front of the number doesn't begin it, no front
/// longer than what they have in common is a key.
fn longest(table: &Table, number: u64) -> Option<(u64, u64)> {
    let mut digits = (number % 16) as u32;
    while digits > 0 {
        let (&key, &rate) = table.range(..=front(number, digits)).next_back()?;
        let own = (key % 16) as u32;
        digits = common(key, number, own.min(digits));
        if digits == own {
            return Some((key, rate));
        }
    }
    None
}

fn reply(table: &mut Table, call: Call) -> Reply {
    match call {
        Call::Set(key, rate) => table.insert(key, rate).map_or(Reply::New, Reply::Was),
        Call::Del(key) => table.remove(&key).map_or(Reply::Absent, Reply::Gone),
        Call::Get(key) => table.get(&key).copied().map_or(Reply::Absent, Reply::Value),
        Call::Rate(number) => {
            longest(table, number).map_or(Reply::Absent, |(key, rate)| Reply::Hit(key, rate))
        }
        // A range that ends before it begins has no rows, and `range` refuses it.
        Call::List(from, to, _) if from > to => Reply::Rows(Vec::new()),
        Call::List(from, to, limit) => {
            let rows = table.range(from..=to).take(limit);
            Reply::Rows(rows.map(|(key, rate)| (*key, *rate)).collect())
        }
    }
}

impl Random {
    fn draw(&mut self) -> u64 {
        self.state = self
            .state
            .wrapping_mul(6_364_136_223_846_793_005)
            .wrapping_add(1_442_695_040_888_963_407);
        self.state >> 32
    }
}

// ---- the calls of palm_bench

fn nine_digits(number: u64) -> u64 {
    key_of(number + FIRST, 9)
}

fn set(number: u64, rate: u64) -> Call {
    Call::Set(nine_digits(number), rate % 1_000)
}

fn rate(number: u64) -> Call {
    Call::Rate(key_of((number + FIRST) * 1_000 + 555, 12))
}

fn list(from: u64, to: u64) -> Call {
    // The prefix after the last of nine digits is written with its last nine.
    let last = |number: u64| key_of((number + FIRST) % 1_000_000_000, 9);
    Call::List(last(from), last(to), LISTED)
}

impl Feed {
    fn new(kind: Kind, rows: u64, nested: bool) -> Feed {
        Feed {
            kind,
            span: 2 * rows,
            made: 0,
            random: Random { state: 1 },
            start: 0,
            nested,
        }
    }

    fn draw(&mut self) -> u64 {
        self.random.draw() % self.span
    }

    fn edit(&mut self, turn: u64) -> Call {
        if turn % RUN == 0 {
            self.start = self.draw() / 2;
        }
        let number = (self.start + turn % RUN) * 2;
        if turn / RUN % 2 == 0 {
            Call::Del(nine_digits(number))
        } else {
            set(number + 1, turn)
        }
    }

    fn set_nested(&mut self, turn: u64) -> Call {
        let number = nine_digits(self.random.draw() % NUMBERS);
        Call::Set(front(number, 4 + (turn % 6) as u32), turn % 1_000)
    }

    fn look_up(&mut self, turn: u64) -> Call {
        let number = self.draw();
        match turn % 3 {
            0 => Call::Get(nine_digits(number)),
            1 => rate(number),
            _ => list(number, number + NARROW),
        }
    }

    fn mixed(&mut self, turn: u64, each: u64) -> Call {
        if turn % each == 0 {
            return set(self.draw(), turn);
        }
        self.look_up(turn)
    }

    fn next(&mut self) -> Call {
        let turn = self.made;
        self.made += 1;
        match self.kind {
            Kind::Load if self.nested => self.set_nested(turn),
            Kind::Load => set(turn * 2, turn),
            Kind::Sets => set(self.draw(), turn),
            Kind::Edits => self.edit(turn),
            Kind::Gets => Call::Get(nine_digits(self.draw())),
            Kind::Rates => rate(self.draw()),
            Kind::Nested => rate(self.random.draw() % NUMBERS),
            Kind::Narrow => {
                let number = self.draw();
                list(number, number + NARROW)
            }
            Kind::Wide => list(self.draw(), NUMBERS - 1),
            Kind::Looks => self.mixed(turn, 10),
            Kind::Half => self.mixed(turn, 2),
        }
    }
}

/// A reply as a number: that of its word, and eight times its rate.
fn number_of(reply: Reply) -> u64 {
    match reply {
        Reply::New => 1,
        Reply::Was(rate) => 2 + 8 * rate,
        Reply::Gone(rate) => 3 + 8 * rate,
        Reply::Absent => 4,
        Reply::Value(rate) => 5 + 8 * rate,
        Reply::Hit(_, rate) => 6 + 8 * rate,
        Reply::Rows(_) => 7,
    }
}

fn run_calls(table: &mut Table, mut feed: Feed, count: u64, mut sum: u64) -> u64 {
    for _ in 0..count {
        let reply = reply(table, feed.next());
        sum = sum.wrapping_mul(31).wrapping_add(number_of(reply));
    }
    sum
}

fn run_kind(kind: Kind, count: u64) {
    let mut table = Table::new();
    let nested = kind == Kind::Nested;
    let mut sum = run_calls(&mut table, Feed::new(Kind::Load, count, nested), count, 0);
    if kind != Kind::Load {
        sum = run_calls(&mut table, Feed::new(kind, count, nested), count, sum);
    }
    println!("rows {} levels 0 sum {sum:016x}", table.len());
}

// ---- the calls of palm gen

/// The next made-up call, of three draws.
fn made_up(random: &mut Random) -> Call {
    let (a, b, c) = (random.draw(), random.draw(), random.draw());
    let digits = 2 + (b % 6) as u32;
    let number = c % 10_u64.pow(digits);
    let prefix = key_of(number, digits);
    let longer = |more| key_of(number * 10_000 + more, digits + 4);
    match a % 8 {
        0..=3 => Call::Set(prefix, b),
        4 => Call::Del(prefix),
        5 => Call::Get(prefix),
        6 => Call::Rate(longer(5_555)),
        _ => Call::List(prefix, longer(9_999), 8),
    }
}

fn gen_calls(calls: u64, seed: u64) {
    let mut table = Table::new();
    let mut random = Random { state: seed };
    let (mut hits, mut sum) = (0, 0);
    for _ in 0..calls {
        match reply(&mut table, made_up(&mut random)) {
            Reply::Hit(_, rate) => {
                hits += 1;
                sum += rate;
            }
            Reply::Value(rate) => sum += rate,
            _ => {}
        }
    }
    let rows = table.len();
    println!("calls {calls}\nrows {rows}\nlevels 0\nhits {hits}\nsum {sum}");
}

// ---- scripts

/// The key of a prefix that is written in digits.
fn written(text: &str) -> Option<u64> {
    Some(key_of(text.parse().ok()?, text.len() as u32))
}

/// The caller and the call on a line of a script. `None` where it says none.
fn call_on(line: &str) -> Option<(&str, Call)> {
    let mut fields = line.split_ascii_whitespace();
    let (caller, word) = (fields.next()?, fields.next()?);
    let key = written(fields.next()?)?;
    let call = match word {
        "set" => Call::Set(key, fields.next()?.parse().ok()?),
        "del" => Call::Del(key),
        "get" => Call::Get(key),
        "rate" => Call::Rate(key),
        "list" => Call::List(key, written(fields.next()?)?, fields.next()?.parse().ok()?),
        _ => return None,
    };
    Some((caller, call))
}

fn write_reply(out: &mut impl Write, reply: Reply) -> io::Result<()> {
    match reply {
        Reply::New => write!(out, "new"),
        Reply::Was(rate) => write!(out, "was {rate}"),
        Reply::Gone(rate) => write!(out, "gone {rate}"),
        Reply::Absent => write!(out, "absent"),
        Reply::Value(rate) => write!(out, "value {rate}"),
        Reply::Hit(key, rate) => write!(out, "{} {rate}", digits_of(key)),
        Reply::Rows(rows) => {
            write!(out, "rows {}", rows.len())?;
            for (key, rate) in rows {
                write!(out, " {} {rate}", digits_of(key))?;
            }
            Ok(())
        }
    }
}

fn run_script(batch: u64) -> io::Result<()> {
    let text = io::read_to_string(io::stdin())?;
    let mut out = BufWriter::new(io::stdout().lock());
    let mut table = Table::new();
    let (mut calls, mut open) = (0_u64, 0);
    for line in text.lines() {
        let Some((caller, call)) = call_on(line) else {
            // A cut, a comment or an empty line. None of them is a call.
            if line.trim() == "cut" && open > 0 {
                writeln!(out, "= {open}")?;
                open = 0;
            }
            continue;
        };
        write!(out, "{calls} {caller} ")?;
        write_reply(&mut out, reply(&mut table, call))?;
        writeln!(out)?;
        calls += 1;
        open += 1;
        if open == batch {
            writeln!(out, "= {open}")?;
            open = 0;
        }
    }
    if open > 0 {
        writeln!(out, "= {open}")?;
    }
    writeln!(out, "end {calls} {}", table.len())?;
    out.flush()
}

// ---- decks

/// Applies the edit on a line of a deck. `None` where it is none.
fn apply(table: &mut Table, line: &str) -> Option<()> {
    let mut fields = line.split(',').map(|field| field.trim_matches('"'));
    let (op, prefix, rate) = (fields.next()?, fields.next()?, fields.next()?);
    let key = key_of(prefix.parse().ok()?, prefix.len() as u32);
    match op {
        "set" => table.insert(key, rate.parse().ok()?),
        "del" => table.remove(&key),
        _ => return None,
    };
    Some(())
}

fn write_table(table: &Table) -> io::Result<()> {
    let mut out = BufWriter::new(io::stdout().lock());
    writeln!(out, "op,prefix,rate")?;
    for (key, rate) in table {
        writeln!(out, "set,{},{rate}", digits_of(*key))?;
    }
    out.flush()
}

fn run_deck() -> io::Result<()> {
    let text = io::read_to_string(io::stdin())?;
    let mut table = Table::new();
    for line in text.lines().skip(1) {
        if apply(&mut table, line).is_none() {
            return Err(io::Error::other(format!("no edit: {line}")));
        }
    }
    write_table(&table)
}

// ---- the words

fn read_number(word: &str, most: u64) -> Option<u64> {
    let number = word.parse().ok()?;
    (1..=most).contains(&number).then_some(number)
}

fn kind_named(word: &str) -> Option<Kind> {
    match word {
        "load" => Some(Kind::Load),
        "sets" => Some(Kind::Sets),
        "edits" => Some(Kind::Edits),
        "gets" => Some(Kind::Gets),
        "rates" => Some(Kind::Rates),
        "nested" => Some(Kind::Nested),
        "narrow" => Some(Kind::Narrow),
        "wide" => Some(Kind::Wide),
        "looks" => Some(Kind::Looks),
        "half" => Some(Kind::Half),
        _ => None,
    }
}

/// Does what the words say. `None` where they are not of the form.
fn run(words: &[&str]) -> Option<io::Result<()>> {
    match words {
        ["deck"] => return Some(run_deck()),
        ["replay", batch] => return Some(run_script(read_number(batch, 65_536)?)),
        ["gen", calls, seed] => gen_calls(calls.parse().ok()?, seed.parse().ok()?),
        [kind, count, batch, workers] => {
            read_number(batch, 65_536)?;
            read_number(workers, 64)?;
            run_kind(kind_named(kind)?, read_number(count, MOST_COUNT)?);
        }
        _ => return None,
    }
    Some(Ok(()))
}

fn main() -> ExitCode {
    let words: Vec<String> = env::args().skip(1).collect();
    let words: Vec<&str> = words.iter().map(String::as_str).collect();
    match run(&words) {
        Some(Ok(())) => ExitCode::SUCCESS,
        Some(Err(error)) => {
            eprintln!("map: {error}");
            ExitCode::FAILURE
        }
        None => {
            eprintln!("map: KIND COUNT BATCH WORKERS, or replay BATCH, or gen CALLS SEED, or deck");
            ExitCode::from(2)
        }
    }
}
