//! Images: the structs of pothatch.h, field by field. What is no image gives none.
use super::node::{Attempt, Counted, Node, Reports};
use super::object::*;

/// Reads fields one after another; `good` is false once a code is met that there is not.
pub struct Fields<'a> {
    rest: &'a [u8],
    good: bool,
}

impl<'a> Fields<'a> {
    fn bytes<const N: usize>(&mut self) -> [u8; N] {
        let (first, rest) = self.rest.split_at(N);
        self.rest = rest;
        first.try_into().unwrap()
    }

    fn byte(&mut self) -> u8 {
        self.bytes::<1>()[0]
    }

    fn number(&mut self) -> u64 {
        u64::from_be_bytes(self.bytes())
    }

    /// A code of 0 to `most`.
    fn code(&mut self, most: u8) -> u8 {
        let code = self.byte();
        self.good &= code <= most;
        code
    }

    fn key(&mut self) -> Key {
        let key = Key { identifier: self.byte(), usage: self.byte(), value: self.bytes(), info_len: self.byte(), info: self.bytes() };
        let n = key.info_len as usize;
        self.good &= [0, 4, 8].contains(&n) && key.info[n.min(8)..].iter().all(|b| *b == 0);
        key
    }

    fn key_set(&mut self) -> KeySet {
        KeySet { count: self.byte(), keys: [(); 8].map(|_| self.key()) }
    }

    fn counted(&mut self) -> Counted {
        Counted { set: self.key_set(), counters: [(); 8].map(|_| u32::from_be_bytes(self.bytes())) }
    }

    fn octets(&mut self, most: u8) -> Octets {
        Octets { report: self.code(most), len: self.byte(), bytes: self.bytes() }
    }

    fn address(&mut self, most: u8) -> Address {
        Address { report: self.code(most), bytes: self.bytes(), leased: self.code(1), lease: self.number() }
    }

    fn list(&mut self, most: u8) -> List {
        List { report: self.code(most), count: self.byte(), len: self.byte(), bytes: self.bytes() }
    }

    fn rate(&mut self, most: u8) -> Rate {
        Rate { report: self.code(most), value: self.number() }
    }

    fn faults(&mut self) -> Faults {
        Faults { count: self.byte(), entry: [(); 5].map(|_| self.bytes()) }
    }
}

/// The value that is in an image of a kind and size.
fn loaded<T>(bytes: &[u8], kind: u8, size: usize, read: impl FnOnce(&mut Fields) -> T) -> Option<T> {
    if bytes.len() != size || bytes[0] != kind || bytes[1] != 1 {
        return None;
    }
    let mut fields = Fields { rest: &bytes[2..], good: true };
    let value = read(&mut fields);
    assert!(fields.rest.is_empty());
    fields.good.then_some(value)
}

pub fn request(bytes: &[u8]) -> Option<Request> {
    loaded(bytes, b'Q', 296, |f| Request {
        role: f.byte(),
        network: f.octets(2),
        unsupported: f.list(2),
        faults: f.faults(),
        passed: f.number(),
    })
}

pub fn configuration(bytes: &[u8]) -> Option<Configuration> {
    loaded(bytes, b'C', 570, |f| Configuration {
        keys_report: f.code(2),
        keys: f.key_set(),
        address: f.address(2),
        jrc: f.octets(2),
        network: f.octets(2),
        prefix: f.octets(2),
        blacklist: f.list(2),
        rate: f.rate(2),
        came: f.faults(),
        passed: f.number(),
    })
}

pub fn node(bytes: &[u8]) -> Option<Node> {
    loaded(bytes, b'N', 878, |f| Node {
        role: f.byte(),
        attempt: Attempt { phase: f.code(3), clock: f.number(), sent: f.number(), timeout: f.number(), count: f.byte() },
        active: f.counted(),
        pending: f.counted(),
        address: f.address(1),
        received: f.number(),
        jrc: f.octets(1),
        network: f.octets(1),
        prefix: f.octets(1),
        form: f.code(1),
        blacklist: f.list(1),
        rate: f.rate(1),
        faults: f.faults(),
    })
}

/// What has arrived over the serial cable.
pub struct Serial {
    pub arrived: u16,
    pub overrun: u8,
    pub ended: u8,
}

pub fn serial(bytes: &[u8]) -> Option<Serial> {
    loaded(bytes, b'S', 6, |f| Serial { arrived: u16::from_be_bytes(f.bytes()), overrun: f.code(1), ended: f.code(1) })
}

/// Writes fields one after another.
pub struct Image(pub Vec<u8>);

impl Image {
    pub fn new(kind: u8) -> Image {
        Image(vec![kind, 1])
    }

    pub fn bytes(mut self, bytes: &[u8]) -> Image {
        self.0.extend(bytes);
        self
    }

    pub fn number(self, n: u64) -> Image {
        self.bytes(&n.to_be_bytes())
    }

    pub fn key(self, k: &Key) -> Image {
        self.bytes(&[k.identifier, k.usage]).bytes(&k.value).bytes(&[k.info_len]).bytes(&k.info)
    }

    fn key_set(self, set: &KeySet) -> Image {
        set.keys.iter().fold(self.bytes(&[set.count]), Image::key)
    }

    fn counted(self, c: &Counted) -> Image {
        c.counters.iter().fold(self.key_set(&c.set), |image, n| image.bytes(&n.to_be_bytes()))
    }

    fn octets(self, o: &Octets) -> Image {
        self.bytes(&[o.report, o.len]).bytes(&o.bytes)
    }

    fn address(self, a: &Address) -> Image {
        self.bytes(&[a.report]).bytes(&a.bytes).bytes(&[a.leased]).number(a.lease)
    }

    fn list(self, l: &List) -> Image {
        self.bytes(&[l.report, l.count, l.len]).bytes(&l.bytes)
    }

    fn rate(self, r: &Rate) -> Image {
        self.bytes(&[r.report]).number(r.value)
    }

    fn faults(self, f: &Faults) -> Image {
        self.bytes(&[f.count]).bytes(f.entry.as_flattened())
    }

    pub fn of_request(q: &Request) -> Image {
        Image::new(b'Q').bytes(&[q.role]).octets(&q.network).list(&q.unsupported).faults(&q.faults).number(q.passed)
    }

    pub fn of_configuration(c: &Configuration) -> Image {
        let front = Image::new(b'C').bytes(&[c.keys_report]).key_set(&c.keys).address(&c.address);
        let strings = front.octets(&c.jrc).octets(&c.network).octets(&c.prefix);
        strings.list(&c.blacklist).rate(&c.rate).faults(&c.came).number(c.passed)
    }

    pub fn of_node(n: &Node) -> Image {
        let a = &n.attempt;
        let front = Image::new(b'N').bytes(&[n.role, a.phase]).number(a.clock).number(a.sent).number(a.timeout).bytes(&[a.count]);
        let sets = front.counted(&n.active).counted(&n.pending).address(&n.address).number(n.received);
        let strings = sets.octets(&n.jrc).octets(&n.network).octets(&n.prefix).bytes(&[n.form]);
        strings.list(&n.blacklist).rate(&n.rate).faults(&n.faults)
    }

    pub fn of_reports(r: &Reports) -> Image {
        let each = [r.keys, r.address, r.jrc, r.network, r.prefix, r.blacklist, r.rate];
        Image::new(b'R').bytes(&each).number(r.passed)
    }

    pub fn of_serial(s: &Serial) -> Image {
        Image::new(b'S').bytes(&s.arrived.to_be_bytes()).bytes(&[s.overrun, s.ended])
    }
}
