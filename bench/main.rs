//! The exact slack, three ways: the proved library, the same stretch algorithm in plain Rust, and a search that
//! tries every number of ticks. All three drive the same tables in the same way, and must give the same sums.
//!
//! Without arguments: checks that all answers agree and prints times and ratios.
//! With WAY, CASE and `set` or `run`: sets the table of that one case, or runs it, for counting instructions.

mod slack;

use slack::{Duty, Row, Stream, asked, by_stretches, stream, window};
use std::time::Instant;

unsafe extern "C" {
    fn bench_drive(bytes: *const u8, len: usize, ticks: u32, finish: u32) -> u64;
}

struct Case {
    name: &'static str,
    duties: Vec<Duty>,
    ticks: u32,
    finish: u32,
}

fn proved(case: &Case) -> u64 {
    let mut bytes = Vec::new();
    for duty in &case.duties {
        for n in [duty.cost, duty.deadline, duty.separation] {
            bytes.push((n % 256) as u8);
            bytes.push((n / 256) as u8);
        }
    }
    // SAFETY: the library reads `len` bytes from the pointer and keeps neither.
    unsafe { bench_drive(bytes.as_ptr(), bytes.len(), case.ticks, case.finish) }
}

/// Releases, dones and ticks as the library makes them, with the slack asked for before each tick.
fn drive(case: &Case, slack: fn(&[Duty], &[Row], u64) -> u32) -> u64 {
    let mut rows = vec![Row::Idle { earliest: 0 }; case.duties.len()];
    let mut sum = 0u64;
    for clock in 0..u64::from(case.ticks) {
        for (row, duty) in rows.iter_mut().zip(&case.duties) {
            let earliest = match *row {
                Row::Idle { earliest } | Row::Ready { earliest, .. } => earliest,
            };
            if clock < earliest {
                continue;
            }
            let earliest = clock + u64::from(duty.separation);
            *row = if case.finish == 1 {
                Row::Idle { earliest }
            } else {
                let due = clock + u64::from(duty.deadline);
                Row::Ready { left: duty.cost, due, earliest }
            };
        }
        sum += u64::from(slack(&case.duties, &rows, clock));
        for row in rows.iter_mut() {
            if let Row::Ready { left, due, earliest } = *row {
                *row = if left <= 1 {
                    Row::Idle { earliest }
                } else {
                    Row::Ready { left: left - 1, due, earliest }
                };
                break;
            }
        }
    }
    sum
}

fn by_every_tick(duties: &[Duty], rows: &[Row], clock: u64) -> u32 {
    let streams: Vec<Stream> = duties.iter().zip(rows).map(|(d, r)| stream(d, r, clock)).collect();
    let slack = |i: usize| {
        let end = window(&duties[i], &rows[i], clock);
        (0..=end).map(|w| w.saturating_sub(asked(&streams[..=i], w))).max().unwrap_or(0)
    };
    (0..duties.len()).map(slack).min().unwrap_or(65_535)
}

fn duty(cost: u32, deadline: u32, separation: u32) -> Duty {
    Duty { cost, deadline, separation }
}

fn cases() -> Vec<Case> {
    let spread = |n: u32| -> Vec<Duty> { (0..n).map(|i| duty(1, 60 + 10 * i, 60 + 10 * i)).collect() };
    vec![
        Case { name: "1 row", duties: vec![duty(30, 100, 120)], ticks: 20_000, finish: 0 },
        Case {
            name: "4 rows",
            duties: vec![duty(2, 20, 40), duty(10, 80, 100), duty(30, 300, 400), duty(60, 900, 1000)],
            ticks: 20_000,
            finish: 0,
        },
        Case {
            name: "4 rows, windows of a few ticks",
            duties: vec![duty(1, 4, 8), duty(2, 12, 16), duty(3, 30, 40), duty(5, 100, 120)],
            ticks: 20_000,
            finish: 0,
        },
        Case { name: "16 rows", duties: spread(16), ticks: 5_000, finish: 0 },
        Case { name: "longest windows, 16 idle rows", duties: vec![duty(200, 4096, 4096); 16], ticks: 200, finish: 1 },
        Case {
            name: "rates 2 to 4096 at full load",
            duties: {
                let mut rates: Vec<Duty> = (1..=12).map(|k| duty(1, 1 << k, 1 << k)).collect();
                rates.push(duty(1, 4096, 4096));
                rates
            },
            ticks: 500,
            finish: 0,
        },
    ]
}

/// The same table for no ticks: what setting it costs.
fn unticked(case: &Case) -> Case {
    Case { name: case.name, duties: case.duties.clone(), ticks: 0, finish: case.finish }
}

/// The answer, and the best of five times in seconds, less what setting the table takes.
fn timed(case: &Case, f: impl Fn(&Case) -> u64) -> (u64, f64) {
    let best = |case: &Case| {
        let mut best = f64::MAX;
        for _ in 0..5 {
            let start = Instant::now();
            std::hint::black_box(f(case));
            best = best.min(start.elapsed().as_secs_f64());
        }
        best
    };
    (f(case), (best(case) - best(&unticked(case))).max(1e-9))
}

fn main() {
    let args: Vec<String> = std::env::args().collect();
    let cases = cases();
    if args.len() == 4 {
        let case = &cases[args[2].parse::<usize>().expect("a case number")];
        let case = if args[3] == "set" { &unticked(case) } else { case };
        let answer = match args[1].as_str() {
            "proved" => proved(case),
            "stretches" => drive(case, by_stretches),
            "every" => drive(case, by_every_tick),
            other => panic!("no such way: {other}"),
        };
        println!("{answer}");
        return;
    }
    println!("{:<32} {:>12} {:>12} {:>12} {:>8} {:>8}", "case", "proved ms", "stretches ms", "every ms", "ratio", "gain");
    for case in &cases {
        let (a, proved_s) = timed(case, proved);
        let (b, stretches_s) = timed(case, |c| drive(c, by_stretches));
        let (c, every_s) = timed(case, |c| drive(c, by_every_tick));
        assert!(a == b && b == c, "{}: {a} {b} {c}", case.name);
        println!(
            "{:<32} {:>12.2} {:>12.2} {:>12.2} {:>8.2} {:>8.1}",
            case.name,
            proved_s * 1e3,
            stretches_s * 1e3,
            every_s * 1e3,
            proved_s / stretches_s,
            every_s / proved_s
        );
    }
    println!("all answers agree");
}
