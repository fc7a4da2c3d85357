//! Writing payloads, and the limits of objects that are handed in.
use super::item::{put_bytes, put_head, run, Item};
use super::object::*;
use super::{Refused, OWED, RANGE, ROOM};

/// A blacklist that was handed in: that many byte strings in shortest heads, and nothing more.
pub fn is_blacklist(list: &List) -> bool {
    if list.len > 253 {
        return false;
    }
    match run(&list.bytes[..list.len as usize]) {
        Some(items) => items.len() == list.count as usize && items.iter().all(|i| matches!(i, Item::Bytes(_))),
        None => false,
    }
}

/// Reports that were handed in: groups of two integers in shortest heads and null, one at least.
fn is_unsupported(list: &List) -> bool {
    if list.len > 253 || list.count == 0 || list.count % 3 != 0 {
        return false;
    }
    let mut rest = &list.bytes[..list.len as usize];
    for place in 0..list.count {
        let size = match rest.first() {
            Some(0xF6) if place % 3 == 2 => 1,
            Some(b) if place % 3 != 2 && b >> 6 == 0 => match b & 31 {
                0..=23 => 1,
                low @ 24..=27 => 1 + (1 << (low - 24)),
                _ => return false,
            },
            _ => return false,
        };
        if size > rest.len() || run(&rest[..size]).is_none() {
            return false;
        }
        rest = &rest[size..];
    }
    rest.is_empty()
}

fn octets_fit(octets: &Octets) -> bool {
    octets.report != TAKEN || octets.len <= 16
}

pub fn request_fits(q: &Request, form: u8) -> bool {
    let listed = q.unsupported.report != TAKEN || form == PUBLISHED && is_unsupported(&q.unsupported);
    q.role <= 1 && octets_fit(&q.network) && listed
}

pub fn configuration_fits(c: &Configuration, form: u8) -> bool {
    let of_form = if form == DRAFT {
        c.blacklist.report != TAKEN && c.rate.report != TAKEN
    } else {
        c.network.report != TAKEN && c.prefix.report != TAKEN && (c.blacklist.report != TAKEN || is_blacklist(&c.blacklist))
    };
    (c.keys_report != TAKEN || c.keys.fits(form))
        && (c.address.report != TAKEN || is_address(&c.address.bytes))
        && (c.jrc.report != TAKEN || c.jrc.len == 16)
        && octets_fit(&c.network)
        && octets_fit(&c.prefix)
        && of_form
}

/// A map's pairs as they are written.
#[derive(Default)]
struct Pairs {
    count: u64,
    bytes: Vec<u8>,
}

impl Pairs {
    fn label(&mut self, label: u64) -> &mut Vec<u8> {
        self.count += 1;
        put_head(&mut self.bytes, 0, label);
        &mut self.bytes
    }

    fn octets(&mut self, label: u64, octets: &Octets) {
        if octets.report == TAKEN {
            put_bytes(self.label(label), octets.held());
        }
    }

    fn list(&mut self, label: u64, list: &List) {
        if list.report == TAKEN {
            let out = self.label(label);
            put_head(out, 4, list.count as u64);
            out.extend(&list.bytes[..list.len as usize]);
        }
    }

    fn keys(&mut self, set: &KeySet) {
        let (mut members, mut bytes) = (0, Vec::new());
        for key in set.held() {
            put_head(&mut bytes, 0, key.identifier as u64);
            if key.usage != 0 {
                put_head(&mut bytes, 0, key.usage as u64);
            }
            put_bytes(&mut bytes, &key.value);
            if key.info_len != 0 {
                put_bytes(&mut bytes, &key.info[..key.info_len as usize]);
            }
            members += 2 + (key.usage != 0) as u64 + (key.info_len != 0) as u64;
        }
        let out = self.label(2);
        put_head(out, 4, members);
        out.extend(bytes);
    }

    fn address(&mut self, address: &Address) {
        let out = self.label(3);
        put_head(out, 4, 1 + (address.leased == 1) as u64);
        put_bytes(out, &address.bytes);
        if address.leased == 1 {
            put_head(out, 0, address.lease);
        }
    }

    fn payload(self) -> Result<Vec<u8>, Refused> {
        let mut out = Vec::new();
        put_head(&mut out, 5, self.count);
        out.extend(self.bytes);
        if out.len() > 256 { Err(RANGE) } else { Ok(out) }
    }
}

fn into(payload: Vec<u8>, dst: &mut [u8]) -> Result<u64, Refused> {
    if dst.len() < payload.len() {
        return Err(ROOM);
    }
    dst[..payload.len()].copy_from_slice(&payload);
    Ok(payload.len() as u64)
}

pub fn request(form: u8, q: &Request, dst: &mut [u8]) -> Result<u64, Refused> {
    if !request_fits(q, form) {
        return Err(RANGE);
    }
    let mut pairs = Pairs::default();
    if q.role != 0 {
        put_head(pairs.label(1), 0, q.role as u64);
    }
    pairs.octets(5, &q.network);
    pairs.list(8, &q.unsupported);
    let payload = pairs.payload()?;
    if q.network.report != TAKEN && (form == PUBLISHED || q.role == 0) {
        return Err(OWED);
    }
    into(payload, dst)
}

pub fn configuration(form: u8, c: &Configuration, dst: &mut [u8]) -> Result<u64, Refused> {
    if !configuration_fits(c, form) {
        return Err(RANGE);
    }
    let mut pairs = Pairs::default();
    if c.keys_report == TAKEN {
        pairs.keys(&c.keys);
    }
    if c.address.report == TAKEN {
        pairs.address(&c.address);
    }
    pairs.octets(4, &c.jrc);
    pairs.octets(5, &c.network);
    pairs.octets(6, &c.prefix);
    pairs.list(6, &c.blacklist);
    if c.rate.report == TAKEN {
        put_head(pairs.label(7), 0, c.rate.value);
    }
    into(pairs.payload()?, dst)
}

/// Each parameter from the second where taken there, else from the first. Both are of the draft: a reading of the published form notes the
/// known labels.
pub fn merged(a: &Configuration, b: &Configuration) -> Result<Configuration, Refused> {
    let of_draft = |c: &Configuration| configuration_fits(c, DRAFT) && c.came.count == 0;
    if !of_draft(a) || !of_draft(b) {
        return Err(RANGE);
    }
    let mut c = Configuration { keys_report: a.keys_report, keys: a.keys, address: a.address, ..Configuration::default() };
    if b.keys_report == TAKEN {
        (c.keys_report, c.keys) = (TAKEN, b.keys);
    }
    if b.address.report == TAKEN {
        c.address = b.address;
    }
    c.jrc = if b.jrc.report == TAKEN { b.jrc } else { a.jrc };
    c.network = if b.network.report == TAKEN { b.network } else { a.network };
    c.prefix = if b.prefix.report == TAKEN { b.prefix } else { a.prefix };
    Ok(c)
}
