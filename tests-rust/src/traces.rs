//! Pseudo-random traces, valid and damaged, long and short.

/// A xorshift generator: the same seed gives the same traces everywhere.
pub struct Random(u64);

impl Random {
    pub fn new(seed: u64) -> Random {
        Random(seed.wrapping_mul(0x9e37_79b9_7f4a_7c15) | 1)
    }

    fn next(&mut self) -> u64 {
        self.0 ^= self.0 << 13;
        self.0 ^= self.0 >> 7;
        self.0 ^= self.0 << 17;
        self.0
    }

    fn below(&mut self, bound: u64) -> u64 {
        (self.next() >> 11) % bound
    }

    fn chance(&mut self, percent: u64) -> bool {
        self.below(100) < percent
    }
}

fn record(kind: u16, body: &[u8]) -> Vec<u8> {
    let mut bytes = ((body.len() + 2) as u16).to_le_bytes().to_vec();
    bytes.extend(kind.to_le_bytes());
    bytes.extend(body);
    bytes
}

fn table(number: u16, rows: &[[u32; 3]]) -> Vec<u8> {
    let mut body = number.to_le_bytes().to_vec();
    body.push(rows.len() as u8);
    for row in rows {
        for cell in row {
            body.extend(cell.to_le_bytes());
        }
    }
    record(1, &body)
}

// Rows that are mostly fit, small or near the maxima, with ties likely.
fn rows(random: &mut Random) -> Vec<[u32; 3]> {
    let most = if random.chance(80) { 5 } else { 16 };
    let count = 1 + random.below(most);
    let wide = random.chance(10);
    let (step, rise) = if wide { (60_000, 60_000_000) } else { (6, 30) };
    let mut power = random.below(step) + count * step + u64::from(wide);
    let (mut wake, mut latency) = (0, 0);
    let mut rows = Vec::new();
    for state in 0..count {
        if state > 0 {
            power -= 1 + random.below(step - 1);
            wake += 1 + random.below(rise);
            latency += random.below(4);
        }
        rows.push([power as u32, wake as u32, latency as u32]);
    }
    if random.chance(8) {
        let (row, cell) = (random.below(count) as usize, random.below(3) as usize);
        rows[row][cell] = [0, 1, 5, 100_001, 1_000_001, 1_000_000_001, u32::MAX][random.below(7) as usize];
    }
    rows
}

// `busy` follows whether a lease is out, so that most traces run on.
fn step(random: &mut Random, number: u16, busy: &mut bool) -> Vec<u8> {
    let meant = if random.below(400) > 0 { number } else { number ^ 1 };
    let mut body = meant.to_le_bytes().to_vec();
    match random.below(20) {
        0..=8 => {
            let count = match random.below(2_000) {
                0 => 400_000,
                1 => 1_000_000,
                2 => 1_000_001,
                3 => 0,
                _ => 1 + random.below(30) as u32,
            };
            record(3, &count.to_le_bytes())
        }
        9..=16 if *busy ^ (random.below(300) == 0) => {
            *busy = false;
            record(5, &body)
        }
        9..=16 => {
            *busy = true;
            let length = if random.below(500) > 0 { random.below(17) } else { 17 };
            for _ in 0..length {
                body.push(if random.below(2_000) > 0 { 33 + random.below(94) as u8 } else { 32 });
            }
            record(4, &body)
        }
        _ => {
            let code = if random.chance(50) { 0 } else { random.next() as u32 };
            body.extend(code.to_le_bytes());
            record(6, &body)
        }
    }
}

fn damage(random: &mut Random, trace: &mut Vec<u8>) {
    if trace.is_empty() {
        return;
    }
    let place = random.below(trace.len() as u64) as usize;
    match random.below(5) {
        0 => trace.truncate(place),
        1 => trace[place] = random.next() as u8,
        2 => trace.push(random.next() as u8),
        3 => {
            trace.remove(place);
        }
        _ => trace[place] ^= 1 << random.below(8),
    }
}

fn made(random: &mut Random, longest: bool) -> Vec<u8> {
    let number = random.below(4) as u16;
    let mut trace = table(number, &rows(random));
    if random.chance(30) {
        trace.extend(record(2, &(random.below(12) as u32).to_le_bytes()));
    }
    let steps = if random.chance(5) { 3_000 } else { random.below(40) };
    let mut busy = false;
    for _ in 0..steps {
        trace.extend(step(random, number, &mut busy));
    }
    if longest {
        lengthen(random, &mut trace);
    }
    trace.extend(record(7, &[]));
    while random.chance(25) {
        damage(random, &mut trace);
    }
    trace
}

/// A trace of some records, damaged now and then.
pub fn any(random: &mut Random) -> Vec<u8> {
    made(random, false)
}

/// The same, about as long as a trace may be.
pub fn longest(random: &mut Random) -> Vec<u8> {
    made(random, true)
}

// Ticks up to about the most bytes of a trace, so that with its end it has some bytes fewer, just as many, or more.
fn lengthen(random: &mut Random, trace: &mut Vec<u8>) {
    let most = 65_536 - 4 - 24 + random.below(24) as usize;
    while trace.len() < most {
        trace.extend(record(3, &1u32.to_le_bytes()));
    }
}

/// So many ticks in gaps of one length, with sixteen states. `wake` makes each wake energy so many times as large, and the
/// states that much later.
pub fn long(ticks: u32, gap: u32, wake: u32) -> Vec<u8> {
    let rows: Vec<[u32; 3]> = (0..16).map(|i| [1_000 - 60 * i, 7 * i * i * i * wake, i]).collect();
    let mut trace = table(7, &rows);
    let mut left = ticks;
    while left > 0 {
        let now = left.min(gap);
        trace.extend(record(3, &now.to_le_bytes()));
        trace.extend(record(4, &7u16.to_le_bytes()));
        trace.extend(record(5, &7u16.to_le_bytes()));
        left -= now;
    }
    trace.extend(record(7, &[]));
    trace
}
