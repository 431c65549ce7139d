//! A schedule as text, stepped by events, and the text of its report: docs/FORMATS.md has both.
use std::fmt::Write;
use vosdrieng::{
    Act, Cache, Cause, Denial, Error, Event, Fields, Limits, Load, Loss, Need, Request, Wait, Why,
};

/// Those of the program.
pub const LIMITS: Limits = Limits { max_entry: 16_777_216, max_total: 268_435_456 };

/// The field lines that a first line announces, and what stands behind them.
fn fields_behind(text: &[u8], count: usize) -> (&[u8], &[u8]) {
    let end = text
        .iter()
        .enumerate()
        .filter(|(_, b)| **b == b'\n')
        .map(|(at, _)| at + 1)
        .nth(count.wrapping_sub(1));
    text.split_at(if count == 0 { 0 } else { end.expect("as many lines") })
}

fn load_of(word: &str) -> Load {
    match word {
        "normal" => Load::Normal,
        "validate" => Load::Validate,
        "bypass" => Load::Bypass,
        "skip" => Load::Skip,
        "only" => Load::Only,
        "disable" => Load::Disable,
        other => panic!("no load: {other}"),
    }
}

fn bytes_of(hex: &str) -> Vec<u8> {
    let digits = hex.trim_matches('-');
    (0..digits.len() / 2).map(|i| u8::from_str_radix(&digits[2 * i..2 * i + 2], 16).expect("hex")).collect()
}

/// What a text has that isn't read yet, and the moment that was set last.
struct Reading<'a> {
    rest: &'a [u8],
    now: u64,
}

impl<'a> Reading<'a> {
    fn line(&mut self) -> Option<&'a str> {
        let end = self.rest.iter().position(|b| *b == b'\n')?;
        let line = std::str::from_utf8(&self.rest[..end]).expect("a first line");
        self.rest = &self.rest[end + 1..];
        Some(line)
    }

    fn fields(&mut self, count: &str) -> &'a [u8] {
        let (fields, rest) = fields_behind(self.rest, count.parse().expect("a count"));
        self.rest = rest;
        fields
    }
}

/// Steps the event of a line.
fn step<'c>(
    cache: &'c mut Cache,
    reading: &mut Reading<'_>,
    line: &str,
) -> Result<vosdrieng::Acts<'c>, Error> {
    let words: Vec<&str> = line.split(' ').collect();
    let n = words[1].parse().unwrap_or(0);
    let piece = bytes_of(if words[0] == "piece" { words[2] } else { "-" });
    let event = match words[0] {
        "start" => {
            let fields = reading.fields(words[5]);
            let (method, target) = (words[2].as_bytes(), words[4].as_bytes());
            Event::Start { consumer: n, request: Request { method, load: load_of(words[3]), target, fields } }
        }
        "head" => {
            let fields = reading.fields(words[3]);
            Event::Head { exchange: n, status: words[2].parse().expect("a status"), fields }
        }
        "poll" => Event::Poll { consumer: n, want: words[2].parse().expect("a number") },
        "piece" => Event::Piece { exchange: n, bytes: &piece },
        "end" => Event::End { exchange: n },
        "fault" => Event::Fault { exchange: n },
        "cancel" => Event::Cancel { consumer: n },
        "doom" => Event::Doom { target: words[1].as_bytes() },
        other => panic!("no item: {other}"),
    };
    cache.step(reading.now, &event)
}

fn say_need(need: &Need) -> String {
    match need {
        Need::Disabled => "disabled".into(),
        Need::TimedOut => "timed-out".into(),
        Need::Bypass => "bypass".into(),
        Need::Miss => "miss".into(),
        Need::Vary => "vary".into(),
        Need::Validate => "validate".into(),
        Need::Hole(hole) => format!("hole:{}-{}", hole.start, hole.end),
        Need::Unsatisfied => "unsatisfied".into(),
    }
}

fn say_why(why: Why) -> String {
    match why {
        Why::Fetched { exchange } => format!("fetched:{exchange}"),
        Why::Fresh { age, lifetime } => format!("fresh:{age}/{lifetime}"),
        Why::Stale { age, lifetime } => format!("stale:{age}/{lifetime}"),
        Why::Validated { exchange } => format!("validated:{exchange}"),
    }
}

fn say_cause(cause: Cause) -> String {
    match cause {
        Cause::Net { exchange } => format!("net:{exchange}"),
        Cause::Short { exchange, got, promised } => format!("short:{exchange}:{got}/{promised}"),
        Cause::Changed { exchange } => format!("changed:{exchange}"),
        Cause::StoreWrite { representation } => format!("store-write:{representation}"),
        Cause::StoreRead { representation } => format!("store-read:{representation}"),
        Cause::Miss => "miss".into(),
        Cause::BadHead { exchange } => format!("bad-head:{exchange}"),
    }
}

fn say_wait(wait: Wait) -> String {
    match wait {
        Wait::Turn { consumer } => format!("turn:{consumer}"),
        Wait::Busy { consumer } => format!("busy:{consumer}"),
        Wait::Head { exchange } => format!("head:{exchange}"),
        Wait::Body { exchange } => format!("body:{exchange}"),
    }
}

fn say_loss(loss: Loss) -> &'static str {
    match loss {
        Loss::Fault => "fault",
        Loss::TooLarge => "too-large",
        Loss::Full => "full",
    }
}

fn say_denial(why: Denial) -> String {
    match why {
        Denial::NotRising { last } => format!("1 {last}"),
        Denial::TooMany => "2".into(),
        Denial::NoConsumer => "3".into(),
        Denial::Finished => "4".into(),
        Denial::WantZero => "5".into(),
        Denial::NoExchange => "6".into(),
        Denial::HeadTwice => "7".into(),
        Denial::NoHeadYet => "8".into(),
        Denial::NotAsked => "9".into(),
        Denial::EmptyPiece => "10".into(),
        Denial::Overlong { promised } => format!("11 {promised}"),
    }
}

fn put_fields(fields: Fields<'_>, report: &mut Vec<u8>) {
    for (name, value) in fields {
        report.extend_from_slice(&[name, b": ", value, b"\n"].concat());
    }
}

fn text(bytes: &[u8]) -> &str {
    std::str::from_utf8(bytes).expect("a method or a target")
}

/// Appends the lines of an act.
fn put_act(act: Act<'_>, report: &mut Vec<u8>) {
    let mut line = String::new();
    let mut lines = Fields::default();
    match act {
        Act::Open { exchange, consumer, need, method, target, fields } => {
            let (method, target, count) = (text(method), text(target), fields.count());
            let need = say_need(&need);
            write!(line, "open {exchange} {consumer} {need} {method} {target} {count}").unwrap();
            lines = fields;
        }
        Act::Ask { exchange } => write!(line, "ask {exchange}").unwrap(),
        Act::Close { exchange } => write!(line, "close {exchange}").unwrap(),
        Act::Shown { consumer, representation, why, status, fields, from, to } => {
            let to = to.map_or("-".into(), |to| to.to_string());
            let (why, count) = (say_why(why), fields.count());
            write!(line, "shown {consumer} {representation} {why} {status} {from} {to} {count}").unwrap();
            lines = fields;
        }
        Act::Data { consumer, exchange, position, bytes } => {
            write!(line, "data {consumer} {exchange} {position} ").unwrap();
            bytes.iter().for_each(|b| write!(line, "{b:02x}").unwrap());
        }
        Act::Ended { consumer } => write!(line, "ended {consumer}").unwrap(),
        Act::Failed { consumer, cause } => write!(line, "failed {consumer} {}", say_cause(cause)).unwrap(),
        Act::Pending { consumer, wait } => write!(line, "pending {consumer} {}", say_wait(wait)).unwrap(),
        Act::Lost { representation, loss } => {
            write!(line, "lost {representation} {}", say_loss(loss)).unwrap()
        }
        Act::Evicted { representation } => write!(line, "evicted {representation}").unwrap(),
        Act::Denied { why } => write!(line, "denied {}", say_denial(why)).unwrap(),
        Act::Unknown { kind, detail } => panic!("an unknown act: {kind}, {detail}"),
    }
    report.extend_from_slice(line.as_bytes());
    report.push(b'\n');
    put_fields(lines, report);
}

/// The report of a schedule.
pub fn report_of(schedule: &[u8]) -> Result<Vec<u8>, Error> {
    let mut cache = Cache::new(LIMITS)?;
    let mut reading = Reading { rest: schedule, now: 0 };
    let (mut report, mut number) = (Vec::new(), 0);
    while let Some(line) = reading.line() {
        if let Some(now) = line.strip_prefix("at ") {
            reading.now = now.parse().expect("a moment");
            continue;
        }
        number += 1;
        let acts = step(&mut cache, &mut reading, line)?;
        report.extend_from_slice(format!("> {number}\n").as_bytes());
        acts.for_each(|act| put_act(act, &mut report));
    }
    Ok(report)
}
