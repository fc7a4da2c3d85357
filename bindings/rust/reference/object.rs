//! Objects of the protocol and what a node holds of them. The fields are those of pothatch.h's structs, in their order.
pub const ABSENT: u8 = 0;
pub const TAKEN: u8 = 1;
pub const DISCARDED: u8 = 2;
pub const DRAFT: u8 = 0;
pub const PUBLISHED: u8 = 1;

#[derive(Clone, Copy, Default, PartialEq)]
pub struct Key {
    pub identifier: u8,
    pub usage: u8,
    pub value: [u8; 16],
    pub info_len: u8,
    pub info: [u8; 8],
}

#[derive(Clone, Copy, Default)]
pub struct KeySet {
    pub count: u8,
    pub keys: [Key; 8],
}

/// `report` is a report in an object, 0 or 1 in a node.
#[derive(Clone, Copy, Default)]
pub struct Octets {
    pub report: u8,
    pub len: u8,
    pub bytes: [u8; 16],
}

#[derive(Clone, Copy, Default)]
pub struct Address {
    pub report: u8,
    pub bytes: [u8; 2],
    pub leased: u8,
    pub lease: u64,
}

#[derive(Clone, Copy)]
pub struct List {
    pub report: u8,
    pub count: u8,
    pub len: u8,
    pub bytes: [u8; 253],
}

#[derive(Clone, Copy, Default)]
pub struct Rate {
    pub report: u8,
    pub value: u64,
}

#[derive(Clone, Copy, Default)]
pub struct Faults {
    pub count: u8,
    pub entry: [[u8; 2]; 5],
}

#[derive(Clone, Copy, Default)]
pub struct Request {
    pub role: u8,
    pub network: Octets,
    pub unsupported: List,
    pub faults: Faults,
    pub passed: u64,
}

#[derive(Clone, Copy, Default)]
pub struct Configuration {
    pub keys_report: u8,
    pub keys: KeySet,
    pub address: Address,
    pub jrc: Octets,
    pub network: Octets,
    pub prefix: Octets,
    pub blacklist: List,
    pub rate: Rate,
    pub came: Faults,
    pub passed: u64,
}

impl Default for List {
    fn default() -> List {
        List { report: 0, count: 0, len: 0, bytes: [0; 253] }
    }
}

/// The usage list: 0 to 5 cover beacons and data, 6 to 8 beacons, 9 to 14 data.
pub fn covers(key: &Key, frame_type: u8) -> bool {
    match frame_type {
        0 => key.usage <= 8,
        1 => key.usage <= 5 || (9..=14).contains(&key.usage),
        _ => false,
    }
}

impl KeySet {
    /// The keys that there are; a count over eight is eight.
    pub fn held(&self) -> &[Key] {
        &self.keys[..8.min(self.count as usize)]
    }

    /// One to eight keys in their limits, no identifier twice, additional information only where it may be.
    pub fn fits(&self, form: u8) -> bool {
        let keys = self.held();
        let each = |k: &Key| k.identifier != 0 && k.usage <= 14 && (form == PUBLISHED || k.info_len == 0);
        let once = |i: usize| keys[..i].iter().all(|k| k.identifier != keys[i].identifier);
        (1..=8).contains(&self.count) && keys.iter().all(each) && (0..keys.len()).all(once)
    }

    pub fn find(&self, identifier: u8) -> Option<&Key> {
        self.held().iter().find(|k| k.identifier == identifier)
    }

    pub fn shares(&self, other: &KeySet) -> bool {
        self.held().iter().any(|k| other.find(k.identifier).is_some())
    }
}

/// FFFE and FFFF are no addresses.
pub fn is_address(bytes: &[u8; 2]) -> bool {
    u16::from_be_bytes(*bytes) < 0xFFFE
}

impl Octets {
    pub fn of(bytes: &[u8]) -> Octets {
        let mut octets = Octets { report: TAKEN, len: bytes.len() as u8, bytes: [0; 16] };
        octets.bytes[..bytes.len()].copy_from_slice(bytes);
        octets
    }

    pub fn none(report: u8) -> Octets {
        Octets { report, ..Octets::default() }
    }

    pub fn held(&self) -> &[u8] {
        &self.bytes[..self.len as usize]
    }
}

impl List {
    pub fn of(count: usize, bytes: &[u8]) -> List {
        let mut list = List { report: TAKEN, count: count as u8, len: bytes.len() as u8, bytes: [0; 253] };
        list.bytes[..bytes.len()].copy_from_slice(bytes);
        list
    }

    pub fn none(report: u8) -> List {
        List { report, ..List::default() }
    }
}

impl Faults {
    pub fn add(&mut self, code: u8, label: u8) {
        self.entry[self.count as usize] = [code, label];
        self.count += 1;
    }

    pub fn held(&self) -> &[[u8; 2]] {
        &self.entry[..self.count as usize]
    }
}
