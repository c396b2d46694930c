//! The report of a trace, the naive way: the gap is kept as a list of its ticks, and every figure is worked out anew
//! from that list when it is needed.

use std::fmt::Write;

type Row = [u64; 3]; // power, wake energy, latency

enum Body<'a> {
    Table(u16, Vec<Row>),
    Limit(u32),
    Ticks(u32),
    Request(u16, &'a [u8]),
    Release(u16),
    Report(u16, u32),
    End,
}

fn two(bytes: &[u8]) -> u16 {
    u16::from_le_bytes([bytes[0], bytes[1]])
}

fn four(bytes: &[u8]) -> u32 {
    u32::from_le_bytes([bytes[0], bytes[1], bytes[2], bytes[3]])
}

fn body(kind: u16, bytes: &[u8]) -> Option<Body<'_>> {
    let size = bytes.len();
    match kind {
        1 if size >= 3 => {
            let count = bytes[2] as usize;
            if !(1..=16).contains(&count) || size != 3 + 12 * count {
                return None;
            }
            let rows = bytes[3..].chunks(12).map(|row| [four(row) as u64, four(&row[4..]) as u64, four(&row[8..]) as u64]).collect();
            Some(Body::Table(two(bytes), rows))
        }
        2 if size == 4 => Some(Body::Limit(four(bytes))),
        3 if size == 4 && (1..=1_000_000).contains(&four(bytes)) => Some(Body::Ticks(four(bytes))),
        4 if (2..=18).contains(&size) && bytes[2..].iter().all(|byte| (33..=126).contains(byte)) => Some(Body::Request(two(bytes), &bytes[2..])),
        5 if size == 2 => Some(Body::Release(two(bytes))),
        6 if size == 6 => Some(Body::Report(two(bytes), four(&bytes[2..]))),
        7 if size == 0 => Some(Body::End),
        _ => None,
    }
}

// The record at a place, and the place after it. `seen` counts the records before it: 0, then 1 right after the table,
// then 2.
fn record(trace: &[u8], place: usize, seen: u8) -> Result<(Body<'_>, usize), u8> {
    let left = &trace[place..];
    if left.len() < 4 {
        return Err(1);
    }
    let length = two(left) as usize;
    if left.len() < 2 + length {
        return Err(1);
    }
    if length < 2 {
        return Err(3);
    }
    let kind = two(&left[2..]);
    if !(1..=7).contains(&kind) {
        return Err(2);
    }
    let allowed = match seen {
        0 => kind == 1,
        1 => kind != 1,
        _ => kind > 2,
    };
    if !allowed {
        return Err(4);
    }
    match body(kind, &left[4..2 + length]) {
        Some(found) => Ok((found, place + 2 + length)),
        None => Err(3),
    }
}

fn unfit(rows: &[Row]) -> Option<u8> {
    if rows.len() < 2 || rows.len() > 16 {
        return Some(12);
    }
    if rows.iter().any(|row| row[0] > 1_000_000 || row[1] > 1_000_000_000 || row[2] > 100_000) {
        return Some(13);
    }
    let deeper = rows.windows(2).all(|pair| pair[1][0] < pair[0][0] && pair[1][1] > pair[0][1] && pair[1][2] >= pair[0][2]);
    if rows[0][1] != 0 || rows[0][2] != 0 || !deeper {
        return Some(14);
    }
    None
}

fn cost(row: &Row, ticks: u64) -> u64 {
    row[1] + row[0] * ticks
}

// The state of least cost, the shallowest where several are equal, and its cost.
fn envelope(rows: &[Row], ticks: u64) -> (usize, u64) {
    let mut best = (0, cost(&rows[0], ticks));
    for (state, row) in rows.iter().enumerate() {
        let here = cost(row, ticks);
        if here < best.1 {
            best = (state, here);
        }
    }
    best
}

struct Run {
    number: u16,
    depth: u8,
    rows: Vec<Row>,
    code: u32,
    state: usize,
    busy: bool,
    gap: Vec<usize>, // the state of each tick of the open gap
    stuck: bool,
    ticks: u64,
    clean_energy: u64,
    clean_floor: u64,
    stuck_energy: u64,
    busy_energy: u64,
}

impl Run {
    fn open_energy(&self) -> u64 {
        self.gap.iter().map(|state| self.rows[*state][0]).sum()
    }

    fn tick(&mut self) -> bool {
        if self.ticks >= 1_000_000 {
            return false;
        }
        self.ticks += 1;
        if self.busy {
            self.busy_energy += self.rows[0][0];
            return true;
        }
        let (wanted, _) = envelope(&self.rows, self.gap.len() as u64 + 1);
        if wanted != self.state && self.code != 0 {
            self.stuck = true;
        } else {
            self.state = wanted;
        }
        self.gap.push(self.state);
        true
    }

    // A gap line without its note, or the stop number, or a jam.
    fn request(&mut self) -> Result<String, Option<u8>> {
        if self.busy {
            return Err(Some(21));
        }
        if self.state != 0 && self.code != 0 {
            self.stuck = true;
            return Err(None);
        }
        let length = self.gap.len() as u64;
        let left = self.rows[self.state];
        let energy = self.open_energy() + left[1];
        let floor = if length == 0 { 0 } else { envelope(&self.rows, length).1 };
        let word = if self.stuck { "stuck" } else { "clean" };
        let line = format!("gap {length} {word} {energy} {floor} {} {} ", self.state, left[2]);
        if self.stuck {
            self.stuck_energy += energy;
        } else {
            self.clean_energy += energy;
            self.clean_floor += floor;
        }
        self.gap.clear();
        self.stuck = false;
        self.state = 0;
        self.busy = true;
        Ok(line)
    }

    fn total(&self) -> String {
        let open = self.open_energy();
        let sum = self.clean_energy + self.stuck_energy + self.busy_energy + open;
        format!("total {} {} {} {} {open} {sum}\n", self.clean_energy, self.clean_floor, self.stuck_energy, self.busy_energy)
    }
}

fn attach(number: u16, mut rows: Vec<Row>, limit: Option<u32>) -> Result<Run, u8> {
    if let Some(limit) = limit {
        let quick = rows.iter().skip(1).take_while(|row| row[2] <= limit as u64).count();
        rows.truncate(quick + 1);
    }
    match unfit(&rows) {
        Some(number) => Err(number),
        None => Ok(Run {
            number,
            depth: limit.is_some() as u8,
            rows,
            code: 0,
            state: 0,
            busy: false,
            gap: Vec::new(),
            stuck: false,
            ticks: 0,
            clean_energy: 0,
            clean_floor: 0,
            stuck_energy: 0,
            busy_energy: 0,
        }),
    }
}

// One record on an attached manager: the line it prints, or the number that stops it.
fn step(run: &mut Run, place: usize, body: Body<'_>) -> Result<String, u8> {
    match body {
        Body::Ticks(count) => {
            for _ in 0..count {
                if !run.tick() {
                    return Err(23);
                }
            }
            Ok(String::new())
        }
        Body::Request(number, _) | Body::Release(number) if number != run.number => Err(25),
        Body::Request(_, note) => {
            let from = run.state;
            match run.request() {
                Ok(line) => {
                    let note = if note.is_empty() { "-" } else { std::str::from_utf8(note).expect("printable") };
                    Ok(format!("{line}{note}\n"))
                }
                Err(None) => Ok(format!("jam {place} {} {} {} {from} 0\n", run.number, run.code, run.depth)),
                Err(Some(number)) => Err(number),
            }
        }
        Body::Release(_) if !run.busy => Err(22),
        Body::Release(_) => {
            run.busy = false;
            Ok(String::new())
        }
        Body::Report(number, _) if number != run.number => Err(25),
        Body::Report(_, code) => {
            run.code = code;
            Ok(String::new())
        }
        Body::Table(..) | Body::Limit(_) | Body::End => Ok(String::new()),
    }
}

// The records in turn; an error is the place and the number of the stop line.
fn work(trace: &[u8], text: &mut String) -> Result<(), (usize, u8)> {
    if trace.len() > 65_536 {
        return Err((65_536, 5));
    }
    let (mut place, mut seen) = (0, 0);
    let (mut table, mut limit, mut run) = (None, None, None::<Run>);
    loop {
        let (body, next) = record(trace, place, seen).map_err(|number| (place, number))?;
        match body {
            Body::Table(number, rows) => {
                table = Some((number, rows));
                seen = 1;
            }
            Body::Limit(latency) => {
                limit = Some(latency);
                seen = 2;
            }
            body => {
                seen = 2;
                if run.is_none() {
                    let (number, rows) = table.take().expect("the first record is a table");
                    run = Some(attach(number, rows, limit).map_err(|number| (0, number))?);
                    writeln!(text, "device {number}").expect("a string");
                }
                let run = run.as_mut().expect("attached");
                if let Body::End = body {
                    if next < trace.len() {
                        return Err((next, 4));
                    }
                    text.push_str(&run.total());
                    text.push_str("end\n");
                    return Ok(());
                }
                text.push_str(&step(run, place, body).map_err(|number| (place, number))?);
            }
        }
        place = next;
    }
}

/// The report of a trace.
pub fn report(trace: &[u8]) -> String {
    let mut text = String::new();
    if let Err((place, number)) = work(trace, &mut text) {
        writeln!(text, "stop {place} {number}").expect("a string");
    }
    text
}
