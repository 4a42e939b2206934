//! The exact slack by stretches, in plain Rust: the same algorithm as the proved one, written on its own.

#[derive(Clone, Copy)]
pub struct Duty {
    pub cost: u32,
    pub deadline: u32,
    pub separation: u32,
}

#[derive(Clone, Copy)]
pub enum Row {
    Idle { earliest: u64 },
    Ready { left: u32, due: u64, earliest: u64 },
}

pub fn window(duty: &Duty, row: &Row, clock: u64) -> u32 {
    let end = match *row {
        Row::Idle { earliest } => earliest.max(clock + 1) + u64::from(duty.deadline),
        Row::Ready { due, .. } => due,
    };
    (end - clock) as u32
}

/// What a row asks for from the clock on.
#[derive(Clone, Copy, Default)]
pub struct Stream {
    left: u32,
    first: u32,
    cost: u32,
    separation: u32,
}

pub fn stream(duty: &Duty, row: &Row, clock: u64) -> Stream {
    let (left, next) = match *row {
        Row::Idle { earliest } => (0, earliest.max(clock + 1)),
        Row::Ready { left, earliest, .. } => (left, earliest),
    };
    Stream { left, first: (next - clock) as u32, cost: duty.cost, separation: duty.separation }
}

pub fn asked(streams: &[Stream], ticks: u32) -> u32 {
    streams
        .iter()
        .map(|s| s.left + s.cost * ticks.saturating_sub(s.first).div_ceil(s.separation))
        .sum()
}

pub fn next_job(stream: &Stream, ticks: u32) -> u32 {
    if ticks <= stream.first {
        stream.first
    } else {
        stream.first + (ticks - stream.first).div_ceil(stream.separation) * stream.separation
    }
}

pub fn by_stretches(duties: &[Duty], rows: &[Row], clock: u64) -> u32 {
    let mut streams = [Stream::default(); 16];
    for (i, (duty, row)) in duties.iter().zip(rows).enumerate() {
        streams[i] = stream(duty, row, clock);
    }
    let mut least = 65_535;
    for (i, (duty, row)) in duties.iter().zip(rows).enumerate() {
        let urgent = &streams[..=i];
        let end = window(duty, row, clock);
        let (mut at, mut idle) = (0, 0);
        'window: loop {
            loop {
                if at >= end {
                    break 'window;
                }
                let filled = asked(urgent, at + 1) + idle;
                if filled <= at {
                    break;
                }
                at = filled.min(end);
            }
            let until = urgent.iter().map(|s| next_job(s, at + 1)).fold(end, u32::min);
            idle += until - at;
            at = until;
        }
        least = least.min(idle);
    }
    least
}
