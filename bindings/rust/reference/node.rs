//! One node, both forms (document 01 as amended).
use super::item::put_head;
use super::object::*;
use super::{reading, writing, Refused, CLASH, CLOCK, LONG, OWED, PHASE, RANGE, SILENT};

pub const IDLE: u8 = 0;
pub const WAITING: u8 = 1;
pub const JOINED: u8 = 2;
pub const GAVE_UP: u8 = 3;

#[derive(Clone, Copy, Default)]
pub struct Attempt {
    pub phase: u8,
    pub clock: u64,
    pub sent: u64,
    pub timeout: u64,
    pub count: u8,
}

#[derive(Clone, Copy, Default)]
pub struct Counted {
    pub set: KeySet,
    pub counters: [u32; 8],
}

#[derive(Clone, Copy, Default)]
pub struct Node {
    pub role: u8,
    pub attempt: Attempt,
    pub active: Counted,
    pub pending: Counted,
    pub address: Address,
    pub received: u64,
    pub jrc: Octets,
    pub network: Octets,
    pub prefix: Octets,
    pub form: u8,
    pub blacklist: List,
    pub rate: Rate,
    pub faults: Faults,
}

pub struct Reports {
    pub keys: u8,
    pub address: u8,
    pub jrc: u8,
    pub network: u8,
    pub prefix: u8,
    pub blacklist: u8,
    pub rate: u8,
    pub passed: u64,
}

#[derive(Clone, Copy, PartialEq)]
pub enum Due {
    NotYet,
    Send,
    GaveUp,
}

pub fn make(form: u8, role: u8, network: Option<&[u8]>) -> Result<Node, Refused> {
    if form > 1 || role > 1 || network.is_some_and(|n| n.len() > 16) {
        return Err(RANGE);
    }
    Ok(Node { form, role, network: network.map(Octets::of).unwrap_or_default(), ..Node::default() })
}

fn first_timeout(t: u64) -> bool {
    (10_000..=15_000).contains(&t)
}

impl Node {
    fn set_fits(&self, set: &KeySet) -> bool {
        set.count == 0 || set.fits(self.form)
    }

    /// Whether a call may be handed the node.
    pub fn fits(&self) -> bool {
        let a = &self.attempt;
        let sets = self.set_fits(&self.active.set)
            && self.set_fits(&self.pending.set)
            && !self.active.set.shares(&self.pending.set)
            && (self.role == 0 || self.pending.set.count == 0);
        let doubled = a.count <= 4 && a.timeout % (1 << a.count) == 0 && first_timeout(a.timeout >> a.count);
        let attempt = a.count <= 4 && a.sent <= a.clock && (a.phase != WAITING || doubled);
        let address = self.address.report == 0 || is_address(&self.address.bytes) && self.received <= a.clock;
        let strings = (self.jrc.report == 0 || self.jrc.len == 16) && (self.network.report == 0 || self.network.len <= 16);
        let form = if self.form == DRAFT {
            self.faults.count == 0
                && self.blacklist.report == 0
                && self.rate.report == 0
                && (self.prefix.report == 0 || self.prefix.len <= 16)
        } else {
            self.faults.count <= 5
                && self.faults.held().iter().all(|[code, label]| *code <= 1 && [2, 3, 4, 6, 7].contains(label))
                && self.prefix.report == 0
                && (self.blacklist.report == 0 || writing::is_blacklist(&self.blacklist))
        };
        self.role <= 1 && sets && attempt && address && strings && form
    }

    fn judged(&self) -> Result<(), Refused> {
        if self.fits() { Ok(()) } else { Err(RANGE) }
    }

    fn after(&self, time: u64) -> Result<(), Refused> {
        if time < self.attempt.clock { Err(CLOCK) } else { Ok(()) }
    }

    fn request(&self) -> Request {
        let mut listed = Vec::new();
        for [code, label] in self.faults.held() {
            put_head(&mut listed, 0, *code as u64);
            put_head(&mut listed, 0, *label as u64);
            listed.push(0xF6);
        }
        let count = self.faults.count as usize;
        let unsupported = if count == 0 { List::default() } else { List::of(3 * count, &listed) };
        Request { role: self.role, network: self.network, unsupported, ..Request::default() }
    }

    pub fn start(&mut self, time: u64, timeout: u64, dst: &mut [u8]) -> Result<u64, Refused> {
        self.judged()?;
        self.after(time)?;
        if self.attempt.phase == WAITING {
            return Err(PHASE);
        }
        if !first_timeout(timeout) {
            return Err(RANGE);
        }
        let length = writing::request(self.form, &self.request(), dst)?;
        self.attempt = Attempt { phase: WAITING, clock: time, sent: time, timeout, count: 0 };
        Ok(length)
    }

    pub fn poll(&mut self, time: u64) -> Result<Due, Refused> {
        self.judged()?;
        self.after(time)?;
        let a = &mut self.attempt;
        if a.phase != WAITING {
            return Err(PHASE);
        }
        a.clock = time;
        if time - a.sent < a.timeout {
            return Ok(Due::NotYet);
        }
        if a.count == 4 {
            a.phase = GAVE_UP;
            return Ok(Due::GaveUp);
        }
        (a.count, a.timeout, a.sent) = (a.count + 1, 2 * a.timeout, time);
        Ok(Due::Send)
    }

    /// Where a new set goes; CLASH where it has no place.
    fn install(&mut self, set: KeySet) -> Result<(), Refused> {
        if self.role == 1 {
            let old = self.active;
            let mut counters = [0; 8];
            for (place, key) in set.held().iter().enumerate() {
                let kept = old.set.held().iter().position(|k| k.identifier == key.identifier && k.value == key.value);
                counters[place] = kept.map_or(0, |p| old.counters[p]);
            }
            (self.active, self.pending) = (Counted { set, counters }, Counted::default());
        } else if set.held() == self.active.set.held() {
            self.pending = Counted::default();
        } else if set.shares(&self.active.set) {
            return Err(CLASH);
        } else {
            self.pending = Counted { set, counters: [0; 8] };
        }
        Ok(())
    }

    /// A join answer, or an update.
    pub fn deliver(&mut self, joining: bool, time: u64, payload: &[u8]) -> Result<Reports, Refused> {
        self.judged()?;
        if payload.len() > 256 {
            return Err(LONG);
        }
        self.after(time)?;
        if self.attempt.phase != if joining { WAITING } else { JOINED } {
            return Err(PHASE);
        }
        let mut c = reading::configuration(self.form, false, payload)?;
        if joining && self.role == 1 && self.network.report == 0 && c.network.report != TAKEN {
            return Err(OWED);
        }
        if c.keys_report == TAKEN {
            match self.install(c.keys) {
                Err(why) if self.form == DRAFT => return Err(why),
                Err(_) => c.keys_report = DISCARDED,
                Ok(()) => {}
            }
        }
        Ok(self.configured(joining, time, &c))
    }

    /// What a configuration that is not refused does, its key set apart.
    fn configured(&mut self, joining: bool, time: u64, c: &Configuration) -> Reports {
        let border_only = |report: u8| if report == TAKEN && self.role == 0 { DISCARDED } else { report };
        let reports = Reports {
            keys: c.keys_report,
            address: c.address.report,
            jrc: c.jrc.report,
            network: border_only(c.network.report),
            prefix: border_only(c.prefix.report),
            blacklist: c.blacklist.report,
            rate: c.rate.report,
            passed: c.passed,
        };
        self.attempt.clock = time;
        if joining {
            self.attempt.phase = JOINED;
        }
        if reports.address == TAKEN {
            (self.address, self.received) = (c.address, time);
        }
        if reports.jrc == TAKEN {
            self.jrc = c.jrc;
        }
        if reports.network == TAKEN {
            self.network = c.network;
        }
        if reports.prefix == TAKEN {
            self.prefix = c.prefix;
        }
        if reports.blacklist == TAKEN {
            self.blacklist = c.blacklist;
        }
        if reports.rate == TAKEN {
            self.rate = c.rate;
        }
        self.faults = Faults::default();
        for [code, label] in c.came.held() {
            let report = match label {
                2 => reports.keys,
                3 => reports.address,
                4 => reports.jrc,
                6 => reports.blacklist,
                _ => reports.rate,
            };
            if report == DISCARDED {
                self.faults.add(*code, *label);
            }
        }
        reports
    }

    pub fn holds(&self, time: u64) -> Result<bool, Refused> {
        self.judged()?;
        self.after(time)?;
        let unit = if self.form == DRAFT { 1_000 } else { 3_600_000 };
        let a = &self.address;
        Ok(a.report == 1 && (a.leased == 0 || (time - self.received) / unit < a.lease))
    }

    pub fn send(&mut self, frame_type: u8) -> Result<(Key, u32), Refused> {
        self.judged()?;
        if frame_type > 1 {
            return Err(RANGE);
        }
        let active = &mut self.active;
        let usable = |p: &usize| covers(&active.set.keys[*p], frame_type) && active.counters[*p] != u32::MAX;
        let place = (0..active.set.held().len()).find(usable).ok_or(SILENT)?;
        active.counters[place] += 1;
        Ok((active.set.keys[place], active.counters[place] - 1))
    }

    pub fn receive(&self, frame_type: u8, identifier: u8) -> Result<Key, Refused> {
        self.judged()?;
        if frame_type > 1 || identifier == 0 {
            return Err(RANGE);
        }
        let found = self.active.set.find(identifier).or(self.pending.set.find(identifier));
        found.filter(|k| covers(k, frame_type)).copied().ok_or(SILENT)
    }

    /// Whether the pending set became active.
    pub fn verified(&mut self, frame_type: u8, identifier: u8) -> Result<bool, Refused> {
        self.receive(frame_type, identifier)?;
        if self.active.set.find(identifier).is_some() {
            return Ok(false);
        }
        (self.active, self.pending) = (self.pending, Counted::default());
        Ok(true)
    }
}
