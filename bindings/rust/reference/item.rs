//! CBOR items (RFC 7049), as far as the protocol needs them.
use super::{Refused, CUT, DEEP, EXTRA, FORM, LOOSE};

pub enum Item {
    Unsigned(u64),
    Negative(u64),
    Bytes(Vec<u8>),
    Array(Vec<Item>),
    Map(Vec<(Item, Item)>),
    Other,
}

struct Source<'a> {
    bytes: &'a [u8],
    at: usize,
    strict: bool,
}

impl Source<'_> {
    fn take(&mut self, n: u64) -> Result<Vec<u8>, Refused> {
        if n > (self.bytes.len() - self.at) as u64 {
            return Err(CUT);
        }
        let from = self.at;
        self.at += n as usize;
        Ok(self.bytes[from..self.at].to_vec())
    }

    /// Major type and argument. A strict reading wants the shortest head, but for floats and simple values.
    fn head(&mut self) -> Result<(u8, u64), Refused> {
        let first = self.take(1)?[0];
        let (major, low) = (first >> 5, first & 31);
        let size = match low {
            0..=23 => return Ok((major, low as u64)),
            24..=27 => 1u64 << (low - 24),
            _ => return Err(FORM),
        };
        let argument = self.take(size)?.iter().fold(0u64, |n, b| n << 8 | *b as u64);
        let least = if size == 1 { 24 } else { 1u64 << (4 * size) };
        if self.strict && major != 7 && argument < least {
            return Err(LOOSE);
        }
        Ok((major, argument))
    }

    fn item(&mut self, level: u32) -> Result<Item, Refused> {
        if level > 8 {
            return Err(DEEP);
        }
        let (major, argument) = self.head()?;
        match major {
            0 => Ok(Item::Unsigned(argument)),
            1 => Ok(Item::Negative(argument)),
            2 => Ok(Item::Bytes(self.take(argument)?)),
            3 => self.take(argument).map(|_| Item::Other),
            4 => {
                let mut members = Vec::new();
                for _ in 0..argument {
                    members.push(self.item(level + 1)?);
                }
                Ok(Item::Array(members))
            }
            5 => {
                let mut pairs = Vec::new();
                for _ in 0..argument {
                    pairs.push((self.item(level + 1)?, self.item(level + 1)?));
                }
                Ok(Item::Map(pairs))
            }
            6 => self.item(level + 1).map(|_| Item::Other),
            _ => Ok(Item::Other),
        }
    }
}

/// The one item that the bytes are.
pub fn whole(bytes: &[u8], strict: bool) -> Result<Item, Refused> {
    let mut source = Source { bytes, at: 0, strict };
    let item = source.item(1)?;
    if source.at < bytes.len() {
        return Err(EXTRA);
    }
    Ok(item)
}

/// The items that follow each other and fill the bytes; none where they do not.
pub fn run(bytes: &[u8]) -> Option<Vec<Item>> {
    let mut source = Source { bytes, at: 0, strict: true };
    let mut items = Vec::new();
    while source.at < bytes.len() {
        items.push(source.item(1).ok()?);
    }
    Some(items)
}

/// A shortest head.
pub fn put_head(out: &mut Vec<u8>, major: u8, n: u64) {
    let major = major << 5;
    match n {
        0..=23 => out.push(major | n as u8),
        24..=255 => out.extend([major | 24, n as u8]),
        256..=65535 => {
            out.push(major | 25);
            out.extend((n as u16).to_be_bytes());
        }
        65536..=4294967295 => {
            out.push(major | 26);
            out.extend((n as u32).to_be_bytes());
        }
        _ => {
            out.push(major | 27);
            out.extend(n.to_be_bytes());
        }
    }
}

pub fn put_bytes(out: &mut Vec<u8>, bytes: &[u8]) {
    put_head(out, 2, bytes.len() as u64);
    out.extend(bytes);
}
