//! Random numbers and random inputs, the same in every run.

/// A xorshift generator.
pub struct Random(u64);

impl Random {
    pub fn new(seed: u64) -> Random {
        Random(seed.wrapping_mul(0x9E37_79B9_7F4A_7C15) | 1)
    }

    fn next(&mut self) -> u64 {
        self.0 ^= self.0 << 13;
        self.0 ^= self.0 >> 7;
        self.0 ^= self.0 << 17;
        self.0.wrapping_mul(0x2545_F491_4F6C_DD1D) >> 11
    }

    /// A number below `n`.
    pub fn below(&mut self, n: usize) -> usize {
        (self.next() % n as u64) as usize
    }

    /// True once in `n` times.
    pub fn once_in(&mut self, n: usize) -> bool {
        self.below(n) == 0
    }

    pub fn byte(&mut self) -> u8 {
        self.next() as u8
    }

    fn code(&mut self, symbols: usize) -> u8 {
        if self.once_in(4000) { self.byte() } else { self.below(symbols) as u8 }
    }

    /// Changes, removes or adds a few bytes.
    pub fn damage(&mut self, bytes: &mut Vec<u8>) {
        for _ in 0..=self.below(3) {
            let at = self.below(bytes.len() + 1);
            match self.below(3) {
                0 => bytes.insert(at, b"() =>s0n\n9"[self.below(10)]),
                1 if at < bytes.len() => bytes[at] = self.byte(),
                _ => {
                    if at < bytes.len() {
                        bytes.remove(at);
                    }
                }
            }
        }
    }
}

/// Which way a formula may look.
#[derive(Clone, Copy)]
enum Look {
    Anywhere,
    Back,
    Ahead,
}

fn formula(random: &mut Random, depth: usize, look: Look, out: &mut String) {
    if depth == 0 || random.once_in(3) {
        match (random.below(12), look) {
            (0, _) => out.push_str("true"),
            (1, _) => out.push_str("false"),
            (2, Look::Back | Look::Anywhere) => out.push_str("start"),
            (3, Look::Ahead | Look::Anywhere) => out.push_str("end"),
            _ => {
                let symbol = if random.once_in(300) { random.below(100) } else { random.below(8) };
                out.push_str(&format!("s{symbol}"));
            }
        }
        return;
    }
    let (head, joint, inner) = match (random.below(7), look) {
        (0, _) => ("not ", "", look),
        (1, Look::Back | Look::Anywhere) => ("yest ", "", Look::Back),
        (2, Look::Ahead | Look::Anywhere) => ("next ", "", Look::Ahead),
        (3, Look::Back | Look::Anywhere) => ("", " since ", Look::Back),
        (4, Look::Ahead | Look::Anywhere) => ("", " until ", Look::Ahead),
        (5, _) => ("", " and ", look),
        _ => ("", " or ", look),
    };
    // Once in a while an operand looks the way that its group does not take.
    let inner = if random.once_in(40) { Look::Anywhere } else { inner };
    out.push('(');
    out.push_str(head);
    formula(random, depth - 1, inner, out);
    if !joint.is_empty() {
        out.push_str(joint);
        formula(random, depth - 1, inner, out);
    }
    out.push(')');
}

/// The lines of some rules, mostly right.
pub fn rules(random: &mut Random) -> Vec<u8> {
    let mut text = String::new();
    let lines = if random.once_in(30) { 9 } else { random.below(9) };
    let depth = if random.once_in(30) { 20 } else { 2 };
    for _ in 0..lines {
        formula(random, depth, Look::Anywhere, &mut text);
        text.push_str(" => ");
        formula(random, depth, Look::Anywhere, &mut text);
        text.push('\n');
    }
    if random.once_in(4) {
        text.pop();
    }
    let mut text = text.into_bytes();
    if random.once_in(6) {
        random.damage(&mut text);
    }
    text
}

/// How many instants a random trace has: mostly few, at times about as many as it may have.
fn instants(random: &mut Random) -> usize {
    match random.below(8) {
        0 => 1020 + random.below(10),
        1 => random.below(1024),
        _ => random.below(20),
    }
}

/// A record's body of this kind with about `n` instants of few symbols.
pub fn body_of(random: &mut Random, kind: u8, n: usize) -> Vec<u8> {
    match kind {
        1 => (0..n).map(|_| random.code(8)).collect(),
        2 => (0..2 * n).map(|_| random.byte()).collect(),
        _ => {
            let mut bytes = Vec::new();
            let mut left = n;
            while left > 0 {
                let count = (1 + random.below(7)).min(left);
                left -= count;
                bytes.extend([random.code(8), count as u8]);
                if random.once_in(20) {
                    bytes.extend([random.code(8), 0]);
                }
            }
            bytes
        }
    }
}

/// A random record's body, at times damaged.
pub fn body(random: &mut Random, kind: u8) -> Vec<u8> {
    let n = instants(random);
    let mut bytes = body_of(random, kind, n);
    if random.once_in(8) {
        random.damage(&mut bytes);
    }
    bytes
}

/// A record with this body.
pub fn record(kind: u8, body: &[u8]) -> Vec<u8> {
    let len = body.len() as u16;
    [&[0x5A, kind], &len.to_be_bytes()[..], body].concat()
}

/// A log of random records, at times damaged.
pub fn log(random: &mut Random) -> Vec<u8> {
    let mut log = Vec::new();
    for _ in 0..random.below(12) {
        let kind = 1 + random.below(3) as u8;
        let body = body(random, kind);
        log.extend(record(kind, &body));
    }
    if random.once_in(4) {
        random.damage(&mut log);
    }
    if random.once_in(100) {
        log.resize(65_530 + random.below(12), 0x5A);
    }
    log
}
