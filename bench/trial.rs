//! The trial program in plain Rust, written on its own from docs/SHEETS.md, docs/MACHINE.md and docs/TRANSCRIPTS.md: what the
//! proved one is compared with, in its answers and in its speed. Lines are parsed into trees, at-lines are sorted, the queue is
//! a vector in order of arrival, and response times are sought by rounds.

mod slack;

use slack::{Duty, Row, by_stretches};
use std::fmt::Write as _;
use std::io::{Read, Write};

const LONGEST: usize = 32_768;

struct Fault {
    number: u32,
    line: usize,
    byte: usize,
    layer: &'static str,
    row: Option<usize>,
}

enum Item<'a> {
    Word(&'a str),
    Number(&'a str),
    Form(&'a str, Vec<Item<'a>>),
}

/// The form that begins at `at`, and where it ends; nothing if there is none, or if it nests deeper than 16.
fn form(text: &str, at: usize, depth: usize) -> Option<(Item<'_>, usize)> {
    if depth > 16 || text.as_bytes().get(at) != Some(&b'(') {
        return None;
    }
    let (word, mut at) = run(text, at + 1, |b| b.is_ascii_lowercase())?;
    let mut items = Vec::new();
    loop {
        match text.as_bytes().get(at)? {
            b')' => return Some((Item::Form(word, items), at + 1)),
            b' ' => {
                let (item, end) = match text.as_bytes().get(at + 1)? {
                    b'(' => form(text, at + 1, depth + 1)?,
                    b'0'..=b'9' => {
                        let (digits, end) = run(text, at + 1, |b| b.is_ascii_digit())?;
                        (Item::Number(digits), end)
                    }
                    _ => {
                        let (word, end) = run(text, at + 1, |b| b.is_ascii_lowercase())?;
                        (Item::Word(word), end)
                    }
                };
                items.push(item);
                at = end;
            }
            _ => return None,
        }
    }
}

/// The longest run of such bytes from `at` on, if there is one, and where it ends.
fn run(text: &str, at: usize, is: fn(u8) -> bool) -> Option<(&str, usize)> {
    let len = text.as_bytes()[at..].iter().take_while(|b| is(**b)).count();
    (len > 0).then(|| (&text[at..at + len], at + len))
}

/// The last byte of the text closes its first bracket, and brackets nest at most 16 deep.
fn bracketed(text: &str) -> bool {
    let mut depth = 0;
    for (i, b) in text.bytes().enumerate() {
        match b {
            b'(' => depth += 1,
            b')' => depth -= 1,
            _ => {}
        }
        if depth > 16 {
            return false;
        }
        if depth <= 0 {
            return depth == 0 && b == b')' && i + 1 == text.len();
        }
    }
    false
}

fn value(digits: &str) -> u64 {
    digits.bytes().fold(0u64, |v, b| v.saturating_mul(10).saturating_add(u64::from(b - b'0')))
}

fn fits(item: &Item) -> bool {
    match item {
        Item::Word(_) => true,
        Item::Number(digits) => digits.len() <= 10 && value(digits) <= 4_294_967_295,
        Item::Form(_, items) => items.iter().all(fits),
    }
}

fn numbers<const N: usize>(items: &[Item]) -> Option<[u64; N]> {
    let values: Vec<u64> =
        items.iter().map(|i| if let Item::Number(d) = i { Some(value(d)) } else { None }).collect::<Option<_>>()?;
    values.try_into().ok()
}

#[derive(Clone, Copy)]
enum Call {
    Release(u64),
    Done(u64),
    Request(u64, u64, u64),
    Withdraw(u64),
}

fn call(item: &Item) -> Option<Call> {
    let Item::Form(word, items) = item else { return None };
    match *word {
        "release" => numbers(items).map(|[row]| Call::Release(row)),
        "done" => numbers(items).map(|[row]| Call::Done(row)),
        "request" => numbers(items).map(|[number, units, worth]| Call::Request(number, units, worth)),
        "withdraw" => numbers(items).map(|[number]| Call::Withdraw(number)),
        _ => None,
    }
}

enum Said {
    Sheet,
    Duty([u64; 4]),
    Queue(bool),
    At(u64, Vec<Call>),
    End(u64),
    Remark,
}

fn said(word: &str, items: &[Item]) -> Option<Said> {
    match word {
        "sheet" => numbers(items).and_then(|[n]| (n == 1).then_some(Said::Sheet)),
        "duty" => numbers(items).map(Said::Duty),
        "queue" => match items {
            [Item::Word("first")] => Some(Said::Queue(false)),
            [Item::Word("worth")] => Some(Said::Queue(true)),
            _ => None,
        },
        "at" => match items {
            [Item::Number(clock), calls @ ..] if !calls.is_empty() => {
                Some(Said::At(value(clock), calls.iter().map(call).collect::<Option<_>>()?))
            }
            _ => None,
        },
        "end" => numbers(items).map(|[n]| Said::End(n)),
        _ => None,
    }
}

/// What a line says, or the number of its fault.
fn line_said(bytes: &[u8], ended: bool) -> Result<Said, u32> {
    let text = std::str::from_utf8(bytes).expect("letters are checked");
    if text.starts_with("(remark ") || text.starts_with("(remark)") {
        return if ended && bracketed(text) { Ok(Said::Remark) } else { Err(13) };
    }
    let Some((Item::Form(word, items), _)) = form(text, 0, 1).filter(|(_, end)| ended && *end == text.len()) else {
        return Err(13);
    };
    let said = said(word, &items).ok_or(14u32)?;
    let end_fits = if let Said::End(ticks) = said { ticks <= 10_000 } else { true };
    if items.iter().all(fits) && end_fits { Ok(said) } else { Err(15) }
}

/// The response time of the last of these rows, by rounds from the sum of the costs on.
fn response(rows: &[Duty]) -> Option<u32> {
    let deadline = rows.last()?.deadline;
    let mut w: u32 = rows.iter().map(|d| d.cost).sum();
    while w <= deadline {
        let next = rows.iter().map(|d| d.cost * w.div_ceil(d.separation)).sum();
        if next == w {
            return Some(w);
        }
        w = next;
    }
    None
}

fn add(table: &mut Vec<Duty>, [place, c, d, t]: [u64; 4]) -> Result<(), (u32, Option<usize>)> {
    if place > table.len() as u64 {
        return Err((1, None));
    }
    if !(1 <= c && c <= d && d <= t && t <= 4096) {
        return Err((2, None));
    }
    if table.len() >= 16 {
        return Err((3, None));
    }
    table.insert(place as usize, Duty { cost: c as u32, deadline: d as u32, separation: t as u32 });
    match (0..table.len()).find(|i| response(&table[..=*i]).is_none()) {
        Some(row) => Err((4, Some(row))),
        None => Ok(()),
    }
}

struct At {
    clock: u64,
    calls: Vec<Call>,
    line: usize,
    byte: usize,
}

#[derive(Default)]
struct Sheet {
    table: Vec<Duty>,
    by_worth: bool,
    ats: Vec<At>,
    ticks: u64,
}

fn read(text: &[u8]) -> Result<Sheet, Fault> {
    let sheet_fault = |number, line, byte| Fault { number, line, byte, layer: "sheet", row: None };
    if text.len() > LONGEST {
        return Err(sheet_fault(17, 1, 0));
    }
    let mut sheet = Sheet::default();
    // 0: the first line; 1: duties and the queue; 2: at-lines and the end; 3: remarks only
    let (mut stage, mut byte, mut line) = (0, 0, 1);
    for part in text.split_inclusive(|b| *b == b'\n') {
        let (bytes, ended) = match part.strip_suffix(b"\n") {
            Some(bytes) => (bytes, true),
            None => (part, false),
        };
        if let Some(bad) = bytes.iter().position(|b| !(32..=126).contains(b)) {
            return Err(Fault { number: 12, line, byte: byte + bad, layer: "letters", row: None });
        }
        let said = line_said(bytes, ended).map_err(|number| Fault { number, line, byte, layer: "forms", row: None })?;
        stage = match (stage, said) {
            (0, Said::Sheet) => 1,
            (1.., Said::Remark) => stage,
            (1, Said::Duty(duty)) => {
                add(&mut sheet.table, duty).map_err(|(number, row)| Fault { number, line, byte, layer: "table", row })?;
                1
            }
            (1, Said::Queue(by_worth)) => {
                sheet.by_worth = by_worth;
                2
            }
            (2, Said::At(clock, calls)) => {
                if sheet.ats.len() >= 256 {
                    return Err(sheet_fault(17, line, byte));
                }
                sheet.ats.push(At { clock, calls, line, byte });
                2
            }
            (2, Said::End(ticks)) => {
                sheet.ticks = ticks;
                3
            }
            _ => return Err(sheet_fault(16, line, byte)),
        };
        byte += part.len();
        line += 1;
    }
    if stage < 3 {
        return Err(sheet_fault(16, line, text.len()));
    }
    match sheet.ats.iter().find(|at| at.clock >= sheet.ticks) {
        Some(at) => Err(sheet_fault(16, at.line, at.byte)),
        None => Ok(sheet),
    }
}

struct Errand {
    number: u64,
    left: u64,
    worth: u64,
    put: u64,
}

struct Machine<'a> {
    table: &'a [Duty],
    rows: Vec<Row>,
    clock: u64,
    queue: Vec<Errand>,
    by_worth: bool,
    accepted: u64,
    served: u64,
    withdrawn: u64,
}

impl Machine<'_> {
    /// The place of the errand that is served next.
    fn named(&self) -> Option<usize> {
        if !self.by_worth {
            return (!self.queue.is_empty()).then_some(0);
        }
        let mut best: Option<usize> = None;
        for (i, a) in self.queue.iter().enumerate() {
            if best.is_none_or(|b| a.worth * self.queue[b].put > self.queue[b].worth * a.put) {
                best = Some(i);
            }
        }
        best
    }

    fn call(&mut self, call: Call) -> Result<(), u32> {
        match call {
            Call::Release(row) => {
                let row = usize::try_from(row).ok().filter(|r| *r < self.rows.len()).ok_or(1u32)?;
                let (Row::Idle { earliest } | Row::Ready { earliest, .. }) = self.rows[row];
                if self.clock < earliest {
                    return Err(5);
                }
                let duty = self.table[row];
                self.rows[row] = Row::Ready {
                    left: duty.cost,
                    due: self.clock + u64::from(duty.deadline),
                    earliest: self.clock + u64::from(duty.separation),
                };
            }
            Call::Done(row) => {
                let row = usize::try_from(row).ok().filter(|r| *r < self.rows.len()).ok_or(1u32)?;
                let Row::Ready { earliest, .. } = self.rows[row] else { return Err(6) };
                self.rows[row] = Row::Idle { earliest };
            }
            Call::Request(number, units, worth) => {
                if !(1..=4096).contains(&units) || worth > 65_535 {
                    return Err(8);
                }
                if self.queue.iter().any(|e| e.number == number) {
                    return Err(9);
                }
                if self.queue.len() >= 64 {
                    return Err(10);
                }
                self.queue.push(Errand { number, left: units, worth, put: units });
                self.accepted += units;
            }
            Call::Withdraw(number) => {
                let place = self.queue.iter().position(|e| e.number == number).ok_or(11u32)?;
                self.withdrawn += self.queue.remove(place).left;
            }
        }
        Ok(())
    }

    fn tick(&mut self, out: &mut String) {
        let slack = by_stretches(self.table, &self.rows, self.clock);
        write!(out, "(tick {} {slack} ", self.clock).unwrap();
        self.clock += 1;
        if slack >= 1
            && let Some(place) = self.named()
        {
            writeln!(out, "errand {})", self.queue[place].number).unwrap();
            self.served += 1;
            self.queue[place].left -= 1;
            if self.queue[place].left == 0 {
                self.queue.remove(place);
            }
            return;
        }
        for (i, row) in self.rows.iter_mut().enumerate() {
            if let Row::Ready { left, due, earliest } = *row {
                *row = if left <= 1 { Row::Idle { earliest } } else { Row::Ready { left: left - 1, due, earliest } };
                writeln!(out, "duty {i})").unwrap();
                return;
            }
        }
        out.push_str("nobody)\n");
    }
}

fn transcript(text: &[u8]) -> String {
    let mut out = String::new();
    let mut sheet = match read(text) {
        Ok(sheet) => sheet,
        Err(Fault { number, line, byte, layer, row }) => {
            let row = row.map_or(String::new(), |row| format!(" {row}"));
            return format!("(fault {number} {line} {byte} {layer}{row})\n");
        }
    };
    for i in 0..sheet.table.len() {
        let response = response(&sheet.table[..=i]).expect("every row was admitted");
        writeln!(out, "(duty {i} response {response})").unwrap();
    }
    let mut machine = Machine {
        table: &sheet.table,
        rows: vec![Row::Idle { earliest: 0 }; sheet.table.len()],
        clock: 0,
        queue: Vec::new(),
        by_worth: sheet.by_worth,
        accepted: 0,
        served: 0,
        withdrawn: 0,
    };
    sheet.ats.sort_by_key(|at| at.clock);
    let mut ats = sheet.ats.iter().peekable();
    for clock in 0..sheet.ticks {
        while let Some(at) = ats.next_if(|at| at.clock == clock) {
            for call in &at.calls {
                if let Err(number) = machine.call(*call) {
                    let word = match call {
                        Call::Release(_) => "release",
                        Call::Done(_) => "done",
                        Call::Request(..) => "request",
                        Call::Withdraw(_) => "withdraw",
                    };
                    writeln!(out, "(refused {clock} {number} {word})").unwrap();
                }
            }
        }
        machine.tick(&mut out);
    }
    let waiting: u64 = machine.queue.iter().map(|e| e.left).sum();
    writeln!(out, "(totals {} {} {} {waiting})", machine.accepted, machine.served, machine.withdrawn).unwrap();
    out
}

fn main() {
    let mut text = Vec::new();
    std::io::stdin().take(LONGEST as u64 + 1).read_to_end(&mut text).expect("standard input");
    std::io::stdout().write_all(transcript(&text).as_bytes()).expect("standard output");
}
