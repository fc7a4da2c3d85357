//! Reading payloads, both forms (document 01 as amended, and the rules of RFC 9031).
use super::item::{put_bytes, put_head, whole, Item};
use super::object::*;
use super::{Refused, KEYS, LONG, OWED, ROLE, TWICE, TYPE};

/// What a value is: of the wrong kind or pattern, outside its limits, or good.
enum Judged<T> {
    Broken,
    Outside,
    Good(T),
}
use Judged::*;

fn pairs_of(payload: &[u8], strict: bool) -> Result<Vec<(Item, Item)>, Refused> {
    if payload.len() > 256 {
        return Err(LONG);
    }
    match whole(payload, strict)? {
        Item::Map(pairs) => Ok(pairs),
        _ => Err(TYPE),
    }
}

/// The known label that a pair has, each once; none where it is passed over.
fn known(label: &Item, labels: &[u64], seen: &mut Vec<u64>) -> Result<Option<u64>, Refused> {
    let n = match label {
        Item::Unsigned(n) => *n,
        Item::Negative(_) => return Ok(None),
        _ => return Err(TYPE),
    };
    if !labels.contains(&n) {
        return Ok(None);
    }
    if seen.contains(&n) {
        return Err(TWICE);
    }
    seen.push(n);
    Ok(Some(n))
}

fn octets(value: &Item, least: usize) -> Judged<Octets> {
    match value {
        Item::Bytes(b) if (least..=16).contains(&b.len()) => Good(Octets::of(b)),
        Item::Bytes(_) => Outside,
        _ => Broken,
    }
}

fn address(value: &Item) -> Judged<Address> {
    let Item::Array(members) = value else { return Broken };
    let (bytes, leased, lease) = match members.as_slice() {
        [Item::Bytes(b)] => (b, 0, 0),
        [Item::Bytes(b), Item::Unsigned(n)] => (b, 1, *n),
        _ => return Broken,
    };
    match <[u8; 2]>::try_from(bytes.as_slice()) {
        Ok(bytes) if is_address(&bytes) => Good(Address { report: TAKEN, bytes, leased, lease }),
        _ => Outside,
    }
}

/// A group of the flat array: identifier, usage, value, additional information.
type Group<'a> = (u64, u64, &'a [u8], Option<&'a [u8]>);

fn groups(members: &[Item], form: u8) -> Option<Vec<Group<'_>>> {
    let mut found = Vec::new();
    let mut rest = members;
    while let Some((Item::Unsigned(identifier), after)) = rest.split_first() {
        let (usage, after) = match after.split_first()? {
            (Item::Unsigned(usage), after) => (*usage, after),
            _ => (0, after),
        };
        let (Item::Bytes(value), after) = after.split_first()? else { return None };
        let (info, after) = match after.split_first() {
            Some((Item::Bytes(info), after)) if form == PUBLISHED => (Some(info.as_slice()), after),
            _ => (None, after),
        };
        found.push((*identifier, usage, value.as_slice(), info));
        rest = after;
    }
    rest.is_empty().then_some(found)
}

fn key(group: &Group<'_>) -> Option<Key> {
    let (identifier, usage, value, info) = *group;
    let mut key = Key { identifier: u8::try_from(identifier).ok()?, usage: u8::try_from(usage).ok()?, ..Key::default() };
    key.value = value.try_into().ok()?;
    if let Some(info) = info {
        if info.len() != 4 && info.len() != 8 {
            return None;
        }
        key.info_len = info.len() as u8;
        key.info[..info.len()].copy_from_slice(info);
    }
    Some(key)
}

fn keys(value: &Item, form: u8) -> Judged<KeySet> {
    let Item::Array(members) = value else { return Broken };
    let Some(groups) = groups(members, form) else { return Broken };
    if groups.is_empty() || groups.len() > 8 {
        return Outside;
    }
    let mut set = KeySet { count: groups.len() as u8, ..KeySet::default() };
    for (place, group) in groups.iter().enumerate() {
        let Some(key) = key(group) else { return Outside };
        set.keys[place] = key;
    }
    if set.fits(form) { Good(set) } else { Outside }
}

fn blacklist(value: &Item) -> Option<List> {
    let Item::Array(members) = value else { return None };
    let mut out = Vec::new();
    for member in members {
        let Item::Bytes(b) = member else { return None };
        put_bytes(&mut out, b);
    }
    Some(List::of(members.len(), &out))
}

fn put_integer(out: &mut Vec<u8>, item: &Item) -> Option<()> {
    match item {
        Item::Unsigned(n) => put_head(out, 0, *n),
        Item::Negative(n) => put_head(out, 1, *n),
        _ => return None,
    }
    Some(())
}

fn unsupported(value: &Item) -> Option<List> {
    let Item::Array(members) = value else { return None };
    if members.is_empty() || members.len() % 3 != 0 {
        return None;
    }
    let mut out = Vec::new();
    for group in members.chunks(3) {
        put_integer(&mut out, &group[0])?;
        put_integer(&mut out, &group[1])?;
        out.push(0xF6);
    }
    Some(List::of(members.len(), &out))
}

/// In the draft a broken value is TYPE and one outside the limits has its own refusal, or is discarded; in the published form both are bad.
fn draft<T>(judged: Judged<T>, outside: Result<T, Refused>) -> Result<T, Refused> {
    match judged {
        Broken => Err(TYPE),
        Outside => outside,
        Good(value) => Ok(value),
    }
}

fn published<T>(judged: Judged<T>) -> Option<T> {
    match judged {
        Good(value) => Some(value),
        _ => None,
    }
}

fn taken_in_draft(c: &mut Configuration, label: u64, value: &Item) -> Result<(), Refused> {
    match label {
        2 => {
            c.keys = draft(keys(value, DRAFT), Err(KEYS))?;
            c.keys_report = TAKEN;
        }
        3 => c.address = draft(address(value), Ok(Address { report: DISCARDED, ..Address::default() }))?,
        4 => c.jrc = draft(octets(value, 16), Ok(Octets::none(DISCARDED)))?,
        5 => c.network = draft(octets(value, 0), Ok(Octets::none(DISCARDED)))?,
        _ => c.prefix = draft(octets(value, 0), Ok(Octets::none(DISCARDED)))?,
    }
    Ok(())
}

fn taken_in_published(c: &mut Configuration, label: u64, value: &Item) {
    c.came.add(1, label as u8);
    match label {
        2 => match published(keys(value, PUBLISHED)) {
            Some(set) => (c.keys_report, c.keys) = (TAKEN, set),
            None => c.keys_report = DISCARDED,
        },
        3 => c.address = published(address(value)).unwrap_or(Address { report: DISCARDED, ..Address::default() }),
        4 => c.jrc = published(octets(value, 16)).unwrap_or(Octets::none(DISCARDED)),
        6 => c.blacklist = blacklist(value).unwrap_or(List::none(DISCARDED)),
        _ => {
            c.rate = match value {
                Item::Unsigned(n) => Rate { report: TAKEN, value: *n },
                _ => Rate { report: DISCARDED, value: 0 },
            }
        }
    }
}

pub fn configuration(form: u8, strict: bool, payload: &[u8]) -> Result<Configuration, Refused> {
    let labels: &[u64] = if form == DRAFT { &[2, 3, 4, 5, 6] } else { &[2, 3, 4, 6, 7] };
    let (mut c, mut seen) = (Configuration::default(), Vec::new());
    for (label, value) in &pairs_of(payload, strict)? {
        match known(label, labels, &mut seen)? {
            None => c.passed += 1,
            Some(label) if form == DRAFT => taken_in_draft(&mut c, label, value)?,
            Some(label) => taken_in_published(&mut c, label, value),
        }
    }
    Ok(c)
}

fn role(q: &mut Request, form: u8, value: &Item) -> Result<(), Refused> {
    match (value, form) {
        (Item::Unsigned(n), _) if *n <= 1 => q.role = *n as u8,
        (Item::Unsigned(_), DRAFT) => return Err(ROLE),
        (Item::Unsigned(_), _) => q.faults.add(0, 1),
        (_, DRAFT) => return Err(TYPE),
        _ => q.faults.add(1, 1),
    }
    Ok(())
}

pub fn request(form: u8, strict: bool, payload: &[u8]) -> Result<Request, Refused> {
    let labels: &[u64] = if form == DRAFT { &[1, 5] } else { &[1, 5, 8] };
    let (mut q, mut seen) = (Request::default(), Vec::new());
    for (label, value) in &pairs_of(payload, strict)? {
        match known(label, labels, &mut seen)? {
            None => q.passed += 1,
            Some(1) => role(&mut q, form, value)?,
            Some(5) if form == DRAFT => q.network = draft(octets(value, 0), Ok(Octets::none(DISCARDED)))?,
            Some(5) => q.network = published(octets(value, 0)).unwrap_or(Octets::none(DISCARDED)),
            Some(_) => {
                q.unsupported = unsupported(value).unwrap_or(List::none(DISCARDED));
                if q.unsupported.report == DISCARDED {
                    q.faults.add(1, 8);
                }
            }
        }
    }
    if q.network.report != TAKEN && (form == PUBLISHED || q.role == 0) {
        return Err(OWED);
    }
    Ok(q)
}
