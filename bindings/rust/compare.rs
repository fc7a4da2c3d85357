//! The library against the second implementation (reference/): random payloads, objects, node histories, serial sessions and traces,
//! well-formed and damaged. Prints `N passed, M failed`.
//!
//!     compare [CALLS [FILE]]     about that many calls of each group; FILE gets a record of each call for a program that plays them
mod lend;
#[allow(dead_code)]
mod reference;
mod random;
use lend::{Call, Function::*};
use random::Random;
use std::io::Write;

struct Comparison {
    random: Random,
    calls: u64,
    differ: u64,
    answers: [u64; 23],
    record: Option<std::io::BufWriter<std::fs::File>>,
}

fn hex(slices: &[Vec<u8>]) -> String {
    let one = |s: &Vec<u8>| s.iter().map(|b| format!("{:02x}", b)).collect::<String>();
    slices.iter().map(one).collect::<Vec<String>>().join(" | ")
}

impl Comparison {
    /// Makes the call both ways; what it leaves by the second implementation, and the number.
    fn call(&mut self, call: Call) -> (Call, u32) {
        let (mut plain, mut library) = (call.clone(), call.clone());
        let want = plain.by_plain();
        let got = library.by_library();
        self.calls += 1;
        self.answers[want as usize] += 1;
        let told = !call.tells() || plain.told == library.told;
        if got != Some(want) || plain.written != library.written || !told {
            self.differ += 1;
            if self.differ <= 3 {
                println!("{:?} {:?}\n  read {}\n  lent {}", call.function, call.numbers, hex(&call.read), hex(&call.written));
                println!("  want {} {} {}", want, plain.told, hex(&plain.written));
                println!("  got  {:?} {} {}", got, library.told, hex(&library.written));
            }
        }
        if let Some(file) = &mut self.record {
            file.write_all(&call.record(&plain, want)).unwrap();
        }
        (plain, want)
    }

    /// A number that may not fit a byte: often one whose last byte is a code.
    fn wide(&mut self) -> u64 {
        let high = self.random.pick(&[0, 1 << 8, 1 << 16, 1 << 32, 1 << 63, u64::MAX << 8]);
        high | if self.random.one_of(2) { self.random.below(4) } else { self.random.below(256) }
    }

    fn form(&mut self) -> u64 {
        if self.random.one_of(80) { self.wide() } else { self.random.below(2) }
    }

    /// Bytes to write over, of about the size that is wanted.
    fn room(&mut self, size: usize) -> Vec<u8> {
        let n = self.random.length(size);
        vec![0xEE; n]
    }

    /// A payload is read, the object written, changed by hand and written again.
    fn payload(&mut self) {
        let (form, strict, request) = (self.form(), self.form(), self.random.one_of(3));
        let payload = self.random.payload(form == 1, request);
        let (read, write, size) = if request { (RequestRead, RequestWrite, 296) } else { (ConfigurationRead, ConfigurationWrite, 570) };
        let out = self.room(size);
        let (left, number) = self.call(Call::new(read, &[form, strict], &[&payload], &[&out]));
        let mut object = left.written[0].clone();
        if number != 0 && !self.random.one_of(10) {
            return;
        }
        for again in 0..3 {
            let form = if self.random.one_of(6) { self.form() } else { form };
            let n = if self.random.one_of(4) { self.random.below(260) } else { 256 };
            self.call(Call::new(write, &[form], &[&object], &[&vec![0xEE; n as usize]]));
            if again < 2 && !object.is_empty() {
                self.random.damage(&mut object);
            }
        }
    }

    /// A configuration's image: read from a payload, or damaged.
    fn configuration(&mut self) -> Vec<u8> {
        let form = self.random.one_of(12) as u8;
        let mut out = vec![0xEE; 570];
        while reference::calls::configuration_read(form, 0, &self.random.payload(form == 1, false), &mut out) != 0 {}
        if self.random.one_of(4) {
            self.random.damage(&mut out);
        }
        let n = self.random.length(570);
        out.resize(n, 0);
        out
    }

    fn merge(&mut self) {
        let (first, second, out) = (self.configuration(), self.configuration(), self.room(570));
        self.call(Call::new(Merge, &[], &[&first, &second], &[&out]));
    }

    fn serial(&mut self) {
        let size = if self.random.one_of(8) { self.random.below(300) as usize } else { 256 + self.random.below(9) as usize };
        let (mut store, mut serial) = (self.random.bytes(size as u64), self.random.bytes(6));
        let n = self.random.length(6);
        serial.resize(n, 0);
        if self.random.one_of(20) {
            serial = vec![b'S', 1, 0, 0, 0, 0];
        }
        (serial, _) = self.after(Call::new(Reset, &[], &[], &[&serial]));
        for _ in 0..self.random.below(4) + 1 {
            let (form, strict, request) = (self.form(), self.form(), self.random.one_of(2));
            let payload = self.random.payload(form == 1, request);
            let mut rest = &payload[..];
            while !rest.is_empty() && !self.random.one_of(20) {
                let n = 1 + self.random.next() as usize % rest.len();
                let n = if self.random.one_of(6) { 0 } else { n };
                let call = Call::new(Part, &[], &[&rest[..n]], &[&serial, &store]);
                let (left, _) = self.call(call);
                (serial, store) = (left.written[0].clone(), left.written[1].clone());
                rest = &rest[n..];
            }
            for _ in 0..=self.random.below(2) {
                let (end, size) = if request { (EndRequest, 296) } else { (EndConfiguration, 570) };
                let out = self.room(size);
                (serial, _) = self.after(Call::new(end, &[form, strict], &[&store], &[&serial, &out]));
            }
            if self.random.one_of(3) && !serial.is_empty() {
                self.random.damage(&mut serial);
            }
            (serial, _) = self.after(Call::new(Reset, &[], &[], &[&serial]));
        }
    }

    /// A call's first slice afterwards, and its number.
    fn after(&mut self, call: Call) -> (Vec<u8>, u32) {
        let (left, number) = self.call(call);
        (left.written[0].clone(), number)
    }

    /// A time at or about which something is due.
    fn time(&mut self, image: &[u8]) -> u64 {
        let n = match reference::image::node(image) {
            Some(n) => n,
            None => return self.random.number(),
        };
        let due = n.attempt.sent.saturating_add(n.attempt.timeout);
        let unit = if n.form == 0 { 1_000u64 } else { 3_600_000 };
        let lapse = n.received.saturating_add(n.address.lease.saturating_mul(unit));
        let near = self.random.pick(&[n.attempt.clock, n.attempt.clock, due, due, lapse]);
        let near = if self.random.one_of(4) { n.attempt.clock.saturating_add(self.random.below(30_000)) } else { near };
        match self.random.below(12) {
            0 => near.saturating_sub(1),
            1 => near.saturating_add(1),
            2 if self.random.one_of(9) => self.random.number(),
            _ => near,
        }
    }

    /// An identifier, most often one that a set of the node has.
    fn identifier(&mut self, image: &[u8]) -> u64 {
        let held: Vec<u8> = reference::image::node(image).map_or(vec![], |n| {
            n.active.set.held().iter().chain(n.pending.set.held()).map(|k| k.identifier).collect()
        });
        if !held.is_empty() && !self.random.one_of(8) {
            return self.random.pick(&held) as u64;
        }
        if self.random.one_of(4) { self.wide() } else { self.random.below(30) }
    }

    /// One call on a node; the image afterwards.
    fn on_node(&mut self, node: &[u8], published: bool) -> Vec<u8> {
        let time = self.time(node);
        let frame_type = if self.random.one_of(20) { self.wide() } else { self.random.below(2) };
        // half of the calls are such as belong to the phase
        let which = match (reference::image::node(node).map_or(0, |n| n.attempt.phase), self.random.below(4)) {
            (0 | 3, 0 | 1) => 0,
            (1, 0) => 2,
            (1 | 2, 1) => 5,
            (2, 0) => self.random.pick(&[9, 10, 12, 13]),
            _ => self.random.below(16),
        };
        match which {
            0 | 1 => {
                let timeout = self.random.pick(&[10_000, 15_000, 12_345, 9_999, 15_001, 10_001, 11_000]);
                let n = if self.random.one_of(5) { self.random.below(45) } else { 45 };
                self.after(Call::new(Start, &[time, timeout], &[], &[node, &vec![0xEE; n as usize]])).0
            }
            2..=4 => self.after(Call::new(Poll, &[time], &[], &[node])).0,
            5..=8 => {
                let payload = self.random.payload(published, false);
                let out = self.room(17);
                let waiting = reference::image::node(node).is_some_and(|n| n.attempt.phase == 1);
                let function = if waiting != self.random.one_of(12) { Answer } else { Update };
                self.after(Call::new(function, &[time], &[&payload], &[node, &out])).0
            }
            9 => {
                self.call(Call::new(Holds, &[time], &[node], &[]));
                node.to_vec()
            }
            10 | 11 => {
                let out = self.room(33);
                self.after(Call::new(Send, &[frame_type], &[], &[node, &out])).0
            }
            12 => {
                let (identifier, out) = (self.identifier(node), self.room(33));
                self.call(Call::new(Receive, &[frame_type, identifier], &[node], &[&out]));
                node.to_vec()
            }
            _ => {
                let identifier = self.identifier(node);
                self.after(Call::new(Verified, &[frame_type, identifier], &[], &[node])).0
            }
        }
    }

    fn node(&mut self) {
        let (form, role) = (self.form(), self.form());
        let given = if self.random.one_of(40) { self.random.below(256) } else { !self.random.one_of(6) as u64 };
        let n = if self.random.one_of(10) { self.random.below(20) } else { 4 };
        let (network, out) = (self.random.bytes(n), self.room(878));
        let (mut node, number) = self.after(Call::new(Make, &[form, role, given], &[&network], &[&out]));
        if number != 0 {
            return;
        }
        for _ in 0..40 {
            node = self.on_node(&node, form == 1);
            if self.random.one_of(20) {
                let counter = 2 + 1 + 26 + 217 + 4 * self.random.below(8) as usize;
                node[counter..counter + 4].copy_from_slice(&(u32::MAX - self.random.below(3) as u32).to_be_bytes());
            }
            if self.random.one_of(5) {
                let mut other = node.clone();
                self.random.damage(&mut other);
                let n = self.random.length(878);
                other.resize(n, 0);
                other = self.on_node(&other, form == 1);
                if self.random.one_of(4) && reference::image::node(&other).is_some_and(|n| n.fits()) {
                    node = other;
                }
            }
        }
    }

    /// A trace of calls that mostly fit one another, perhaps damaged or cut.
    fn trace(&mut self) {
        let (mut trace, mut time, mut sent) = (Vec::new(), 0u64, 0u64);
        for _ in 0..self.random.below(30) {
            let kind = if trace.is_empty() && !self.random.one_of(9) { 1 } else { self.random.pick(&[1, 2, 2, 3, 3, 4, 4, 5, 5, 6, 6]) };
            let kind = if kind == 1 && !trace.is_empty() && !self.random.one_of(4) { 3 } else { kind };
            trace.push(kind);
            time = time.saturating_add(self.random.pick(&[0, 0, 1, 500, 10_000, 20_000])).max(sent);
            match kind {
                1 => {
                    let n = self.random.pick(&[0, 2, 16, 255, 255, 17]);
                    let used = if n <= 16 { n as u64 } else { 0 };
                    trace.extend([self.random.below(2) as u8, n]);
                    trace.extend(self.random.bytes(used));
                    trace.extend(vec![0; 16 - used as usize]);
                    (time, sent) = (0, 0);
                }
                2 => {
                    sent = time;
                    trace.extend(time.to_be_bytes());
                    trace.extend(self.random.pick(&[10_000u32, 15_000, 9_999, 12_000]).to_be_bytes());
                }
                3 | 4 => {
                    let mut payload = self.random.payload(false, false);
                    payload.truncate(256);
                    trace.extend(time.to_be_bytes());
                    trace.extend((payload.len() as u16).to_be_bytes());
                    trace.extend(&payload);
                    trace.extend(vec![0; 256 - payload.len()]);
                }
                5 => trace.extend([self.random.below(2) as u8, self.random.below(26) as u8]),
                _ => trace.extend(time.to_be_bytes()),
            }
        }
        if self.random.one_of(4) && !trace.is_empty() {
            let at = self.random.next() as usize % trace.len();
            if self.random.one_of(2) { trace.truncate(at) } else { trace[at] = self.random.next() as u8 }
        }
        let (node, out) = (self.room(878), self.room(251));
        self.call(Call::new(Replay, &[], &[&trace], &[&node, &out]));
    }

    /// One group of calls, up to a number of them.
    fn group(&mut self, name: &str, calls: u64, step: fn(&mut Comparison)) -> bool {
        (self.calls, self.differ, self.answers) = (0, 0, [0; 23]);
        while self.calls < calls {
            step(self);
        }
        let met: Vec<String> = (0..23).filter(|n| self.answers[*n] > 0).map(|n| format!("{}:{}", n, self.answers[n])).collect();
        println!("compare: {}: {} calls, {} differ; answers {}", name, self.calls, self.differ, met.join(" "));
        self.differ == 0
    }
}

fn main() {
    let words: Vec<String> = std::env::args().collect();
    let calls = words.get(1).map_or(200_000, |w| w.parse().expect("a number of calls"));
    let record = words.get(2).map(|path| std::io::BufWriter::new(std::fs::File::create(path).expect("a file to record to")));
    let mut c = Comparison { random: Random(0x9E37_79B9_7F4A_7C15), calls: 0, differ: 0, answers: [0; 23], record };
    let done = [
        c.group("payloads", calls, Comparison::payload),
        c.group("merges", calls / 8, Comparison::merge),
        c.group("nodes", calls, Comparison::node),
        c.group("serial", calls / 4, Comparison::serial),
        c.group("replay", calls / 20, Comparison::trace),
    ];
    let passed = done.iter().filter(|d| **d).count();
    println!("{} passed, {} failed", passed, done.len() - passed);
    std::process::exit(if passed == done.len() { 0 } else { 1 });
}
