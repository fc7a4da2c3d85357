//! Random payloads, well-formed and damaged, and random damage to images.
use crate::reference::item::{put_bytes, put_head};

pub struct Random(pub u64);

impl Random {
    pub fn next(&mut self) -> u64 {
        self.0 ^= self.0 << 13;
        self.0 ^= self.0 >> 7;
        self.0 ^= self.0 << 17;
        self.0.wrapping_mul(0x2545_F491_4F6C_DD1D) >> 8
    }

    pub fn below(&mut self, n: u64) -> u64 {
        self.next() % n
    }

    /// One of `n` times.
    pub fn one_of(&mut self, n: u64) -> bool {
        self.below(n) == 0
    }

    pub fn pick<T: Copy>(&mut self, from: &[T]) -> T {
        from[self.below(from.len() as u64) as usize]
    }

    pub fn bytes(&mut self, n: u64) -> Vec<u8> {
        (0..n).map(|_| self.next() as u8).collect()
    }

    /// A number of any size.
    pub fn number(&mut self) -> u64 {
        let most = self.pick(&[8, 24, 300, 70_000, 5_000_000_000, u64::MAX]);
        let n = self.next() << 30 ^ self.next();
        self.pick(&[n % most, most, most - 1, 23, 24, 255, 256, 65_535, 65_536])
    }

    /// A head, now and then longer than needed.
    fn head(&mut self, out: &mut Vec<u8>, major: u8, n: u64) {
        if !self.one_of(40) {
            return put_head(out, major, n);
        }
        let low = self.below(4) as u8;
        let size = 1usize << low;
        if size < 8 && n >> (8 * size) != 0 {
            return put_head(out, major, n);
        }
        out.push(major << 5 | (24 + low));
        out.extend(&n.to_be_bytes()[8 - size..]);
    }

    fn string(&mut self, out: &mut Vec<u8>, bytes: &[u8]) {
        self.head(out, 2, bytes.len() as u64);
        out.extend(bytes);
    }

    /// Any item, nested up to a depth.
    pub fn item(&mut self, out: &mut Vec<u8>, depth: u64) {
        let n = self.number();
        match self.below(if depth == 0 { 5 } else { 8 }) {
            0 => self.head(out, 0, n),
            1 => self.head(out, 1, n),
            2 => {
                let n = self.below(20);
                let bytes = self.bytes(n);
                self.string(out, &bytes);
            }
            3 => {
                let n = self.below(6);
                self.head(out, 3, n);
                out.extend(self.bytes(n));
            }
            4 => out.extend(self.pick(&[&[0xF6u8][..], &[0xF8, 5], &[0xF9, 0, 0], &[0xFB, 1, 2, 3, 4, 5, 6, 7, 8], &[0xE0]])),
            5 => {
                let n = self.below(4);
                self.head(out, 4, n);
                (0..n).for_each(|_| self.item(out, depth - 1));
            }
            6 => {
                let n = self.below(3);
                self.head(out, 5, n);
                (0..2 * n).for_each(|_| self.item(out, depth - 1));
            }
            _ => {
                self.head(out, 6, n);
                self.item(out, depth - 1);
            }
        }
    }

    /// A key set, the same one for the same seed, so that sets occur again; now and then with a fault.
    fn keys(&mut self, out: &mut Vec<u8>, published: bool) {
        let mut fixed = Random(0x1234_5678_9ABC + self.below(24) * 7919);
        let count = fixed.below(8) + 1;
        let first = fixed.below(6);
        let fault = self.one_of(6);
        let (mut members, mut body) = (0, Vec::new());
        let count = if fault && self.one_of(4) { self.pick(&[0, 9]) } else { count };
        for i in 0..count {
            let identifier = if fixed.one_of(9) { 200 + i } else { 1 + first * 3 + i };
            let identifier = if fault && self.one_of(6) { self.pick(&[0, 1, 255, 256, u64::MAX]) } else { identifier };
            self.head(&mut body, 0, identifier);
            members += 1;
            let usage = fixed.below(20);
            if usage > 0 && usage < 15 {
                let usage = if fault && self.one_of(6) { self.pick(&[14, 15, 255, 256]) } else { usage };
                self.head(&mut body, 0, usage);
                members += 1;
            }
            let size = if fault && self.one_of(8) { self.pick(&[0, 15, 17]) } else { 16 };
            let value = vec![(identifier as u8).wrapping_mul(3) ^ fixed.below(2) as u8; size];
            self.string(&mut body, &value);
            members += 1;
            if fixed.one_of(4) && (published || self.one_of(10)) {
                let size = if fault && self.one_of(3) { self.pick(&[0, 3, 5, 9]) } else { self.pick(&[4, 8]) };
                let info = vec![0x11 + fixed.below(2) as u8; size];
                self.string(&mut body, &info);
                members += 1;
            }
        }
        if fault && self.one_of(5) {
            self.item(&mut body, 1);
            members += 1;
        }
        self.head(out, 4, members);
        out.extend(body);
    }

    fn address(&mut self, out: &mut Vec<u8>) {
        let leased = self.one_of(2);
        self.head(out, 4, 1 + leased as u64);
        let bytes = match self.below(8) {
            0 => vec![0xFF, 0xFE],
            1 => vec![0xFF, 0xFF],
            2 => {
                let n = self.below(4);
                self.bytes(n)
            }
            _ => self.bytes(2),
        };
        self.string(out, &bytes);
        if leased {
            let n = if self.one_of(2) { self.below(4) } else { self.number() };
            self.head(out, 0, n);
        }
    }

    fn octets(&mut self, out: &mut Vec<u8>, usual: u64) {
        let n = if self.one_of(3) { self.below(19) } else { usual };
        let bytes = self.bytes(n);
        self.string(out, &bytes);
    }

    fn blacklist(&mut self, out: &mut Vec<u8>) {
        let n = self.below(5);
        self.head(out, 4, n);
        for _ in 0..n {
            let size = self.pick(&[0, 1, 8, 8, 8, 23, 24, 40]);
            let bytes = self.bytes(size);
            self.string(out, &bytes);
        }
    }

    fn reports(&mut self, out: &mut Vec<u8>) {
        let n = self.below(5);
        let members = if self.one_of(8) { 3 * n + 1 } else { 3 * n };
        self.head(out, 4, members);
        for i in 0..members {
            let n = self.number();
            match i % 3 {
                2 if self.one_of(2) => out.push(0xF6),
                2 => self.item(out, 2),
                _ => {
                    let major = self.below(2) as u8;
                    self.head(out, major, n)
                }
            }
        }
    }

    /// The value of a label; now and then any item instead.
    fn value(&mut self, out: &mut Vec<u8>, label: u64, published: bool, request: bool) {
        if self.one_of(14) {
            return self.item(out, 3);
        }
        match (label, request) {
            (1, true) => {
                let role = self.pick(&[0, 1, 1, 0, 1, 2, u64::MAX]);
                self.head(out, 0, role)
            }
            (8, true) => self.reports(out),
            (2, false) => self.keys(out, published),
            (3, false) => self.address(out),
            (4, false) => self.octets(out, 16),
            (5, _) => self.octets(out, 4),
            (6, false) if published => self.blacklist(out),
            (6, false) => self.octets(out, 8),
            (7, false) => {
                let n = self.number();
                self.head(out, 0, n)
            }
            _ => {
                let depth = self.pick(&[0, 1, 2, 6, 7, 8]);
                self.item(out, depth)
            }
        }
    }

    /// A payload of a form with some of its labels, in any order, and others among them.
    pub fn good_payload(&mut self, published: bool, request: bool) -> Vec<u8> {
        let labels: &[u64] = match (request, published) {
            (true, false) => &[1, 5],
            (true, true) => &[1, 5, 8],
            (false, false) => &[2, 3, 4, 5, 6],
            (false, true) => &[2, 3, 4, 6, 7],
        };
        let mut chosen: Vec<u64> = labels.iter().copied().filter(|l| !self.one_of(if request && *l == 5 { 9 } else { 2 })).collect();
        if self.one_of(4) {
            chosen.push(self.pick(&[0, 1, 5, 7, 8, 9, 99, 300]));
        }
        if self.one_of(20) && !chosen.is_empty() {
            chosen.push(chosen[0]);
        }
        for i in (1..chosen.len()).rev() {
            if self.one_of(2) {
                chosen.swap(i, self.next() as usize % (i + 1));
            }
        }
        let mut out = Vec::new();
        let minus = self.one_of(12);
        self.head(&mut out, 5, chosen.len() as u64 + minus as u64);
        for label in &chosen {
            self.head(&mut out, 0, *label);
            self.value(&mut out, *label, published, request);
        }
        if minus {
            let n = self.number();
            self.head(&mut out, 1, n);
            self.item(&mut out, 2);
        }
        out
    }

    /// A payload that fills the 256 bytes, or just not.
    fn full_payload(&mut self, published: bool) -> Vec<u8> {
        let n = 245 + self.below(8);
        let mut out = vec![0xA1];
        if published {
            put_head(&mut out, 0, 6);
            put_head(&mut out, 4, 1);
            let bytes = self.bytes(n);
            put_bytes(&mut out, &bytes);
        } else {
            put_head(&mut out, 0, 99);
            let bytes = self.bytes(n + 5);
            put_bytes(&mut out, &bytes);
        }
        out
    }

    /// Any payload: most are well-formed, some damaged, few nonsense.
    pub fn payload(&mut self, published: bool, request: bool) -> Vec<u8> {
        let mut out = match self.below(30) {
            0 => {
                let n = self.below(300);
                return self.bytes(n);
            }
            1 => self.full_payload(published),
            _ => self.good_payload(published, request),
        };
        if !self.one_of(4) || out.is_empty() {
            return out;
        }
        let at = self.next() as usize % out.len();
        match self.below(5) {
            0 => out.truncate(at),
            1 => out.push(self.next() as u8),
            2 => out.insert(at, self.next() as u8),
            3 => out[at] ^= 1 << self.below(8),
            _ => out[at] = self.next() as u8,
        }
        out
    }

    /// Some bytes of an image changed, to numbers that a field may have or to any.
    pub fn damage(&mut self, image: &mut [u8]) {
        for _ in 0..=self.below(3) {
            let at = self.next() as usize % image.len();
            image[at] = match self.below(3) {
                0 => self.pick(&[0, 1, 2, 3, 4, 8, 9, 16, 17, 253, 254, 255]),
                1 => image[at] ^ 1 << self.below(8),
                _ => self.next() as u8,
            };
        }
    }

    /// A length, most often the right one.
    pub fn length(&mut self, right: usize) -> usize {
        match self.below(60) {
            0 => right - 1,
            1 => right + 1,
            2 => 0,
            _ => right,
        }
    }
}
