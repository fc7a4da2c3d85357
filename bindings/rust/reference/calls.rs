//! The calls of pothatch.h over bytes: lengths, image, call, store. Beside each refusal a result is all 0.
use super::image::{self, Image, Serial};
use super::trace::TraceRun;
use super::node::{self, Due, Node};
use super::object::{Configuration, Request};
use super::{reading, writing, Refused, LONG, PHASE, RANGE};

/// A struct that is handed back: its image, or all 0. One of another size is RANGE and stays.
fn hand(out: &mut [u8], size: usize, answer: impl FnOnce() -> Result<Image, Refused>) -> u32 {
    if out.len() != size {
        return RANGE;
    }
    match answer() {
        Ok(image) => {
            out.copy_from_slice(&image.0);
            0
        }
        Err(why) => {
            out.fill(0);
            why
        }
    }
}

/// A number that is handed back: the answer, or 0.
fn tell(told: &mut u64, answer: Result<u64, Refused>) -> u32 {
    *told = *answer.as_ref().unwrap_or(&0);
    answer.err().unwrap_or(0)
}

fn two(form: u8, reading: u8) -> Result<bool, Refused> {
    if form > 1 || reading > 1 { Err(RANGE) } else { Ok(reading == 1) }
}

fn of_request(q: Result<Request, Refused>) -> Result<Image, Refused> {
    q.map(|q| Image::of_request(&q))
}

fn of_configuration(c: Result<Configuration, Refused>) -> Result<Image, Refused> {
    c.map(|c| Image::of_configuration(&c))
}

pub fn request_read(form: u8, reading: u8, payload: &[u8], out: &mut [u8]) -> u32 {
    hand(out, 296, || of_request(reading::request(form, two(form, reading)?, payload)))
}

pub fn configuration_read(form: u8, reading: u8, payload: &[u8], out: &mut [u8]) -> u32 {
    hand(out, 570, || of_configuration(reading::configuration(form, two(form, reading)?, payload)))
}

pub fn request_write(form: u8, object: &[u8], dst: &mut [u8], length: &mut u64) -> u32 {
    let object = two(form, 0).and(image::request(object).ok_or(RANGE));
    tell(length, object.and_then(|q| writing::request(form, &q, dst)))
}

pub fn configuration_write(form: u8, object: &[u8], dst: &mut [u8], length: &mut u64) -> u32 {
    let object = two(form, 0).and(image::configuration(object).ok_or(RANGE));
    tell(length, object.and_then(|c| writing::configuration(form, &c, dst)))
}

pub fn configuration_merge(first: &[u8], second: &[u8], out: &mut [u8]) -> u32 {
    hand(out, 570, || {
        let both = (image::configuration(first).ok_or(RANGE)?, image::configuration(second).ok_or(RANGE)?);
        of_configuration(writing::merged(&both.0, &both.1))
    })
}

pub fn node_make(form: u8, role: u8, has_network: u8, network: &[u8], node: &mut [u8]) -> u32 {
    hand(node, 878, || match has_network {
        0 => node::make(form, role, None).map(|n| Image::of_node(&n)),
        1 => node::make(form, role, Some(network)).map(|n| Image::of_node(&n)),
        _ => Err(RANGE),
    })
}

/// A call on a node's image, which is stored where the call is not refused.
fn on_node<T>(bytes: &mut [u8], call: impl FnOnce(&mut Node) -> Result<T, Refused>) -> Result<T, Refused> {
    let mut node = image::node(bytes).ok_or(RANGE)?;
    let answer = call(&mut node)?;
    bytes.copy_from_slice(&Image::of_node(&node).0);
    Ok(answer)
}

pub fn node_start(node: &mut [u8], time: u64, timeout: u64, dst: &mut [u8], length: &mut u64) -> u32 {
    tell(length, on_node(node, |n| n.start(time, timeout, dst)))
}

pub fn node_poll(node: &mut [u8], time: u64, due: &mut u64) -> u32 {
    let code = |due| match due {
        Due::NotYet => 1,
        Due::Send => 2,
        Due::GaveUp => 3,
    };
    tell(due, on_node(node, |n| n.poll(time).map(code)))
}

pub fn node_deliver(joining: bool, node: &mut [u8], time: u64, payload: &[u8], reports: &mut [u8]) -> u32 {
    hand(reports, 17, || on_node(node, |n| n.deliver(joining, time, payload).map(|r| Image::of_reports(&r))))
}

pub fn node_holds(node: &[u8], time: u64, holds: &mut u64) -> u32 {
    let answer = image::node(node).ok_or(RANGE).and_then(|n| n.holds(time));
    tell(holds, answer.map(|yes| if yes { 1 } else { 2 }))
}

pub fn node_send(node: &mut [u8], frame_type: u8, key: &mut [u8]) -> u32 {
    hand(key, 33, || {
        let sent = on_node(node, |n| n.send(frame_type))?;
        Ok(Image::new(b'K').key(&sent.0).bytes(&sent.1.to_be_bytes()))
    })
}

pub fn node_receive(node: &[u8], frame_type: u8, identifier: u8, key: &mut [u8]) -> u32 {
    hand(key, 33, || {
        let found = image::node(node).ok_or(RANGE)?.receive(frame_type, identifier)?;
        Ok(Image::new(b'K').key(&found).bytes(&[0; 4]))
    })
}

pub fn node_verified(node: &mut [u8], frame_type: u8, identifier: u8, change: &mut u64) -> u32 {
    tell(change, on_node(node, |n| n.verified(frame_type, identifier).map(|switched| 1 + switched as u64)))
}

pub fn serial_reset(serial: &mut [u8]) -> u32 {
    hand(serial, 6, || Ok(Image::of_serial(&Serial { arrived: 0, overrun: 0, ended: 0 })))
}

/// What has arrived, if the image is one and the store is long enough.
fn arrival(serial: &[u8], store: &[u8]) -> Result<Serial, Refused> {
    let s = image::serial(serial).ok_or(RANGE)?;
    if s.arrived > 256 || store.len() < 256 { Err(RANGE) } else { Ok(s) }
}

pub fn serial_part(serial: &mut [u8], store: &mut [u8], part: &[u8]) -> u32 {
    let mut s = match arrival(serial, store) {
        Ok(s) => s,
        Err(why) => return why,
    };
    let at = s.arrived as usize;
    let answer = if s.overrun == 1 || part.len() > 256 - at {
        s.overrun = 1;
        LONG
    } else if s.ended == 1 {
        PHASE
    } else {
        store[at..at + part.len()].copy_from_slice(part);
        s.arrived += part.len() as u16;
        0
    };
    serial.copy_from_slice(&Image::of_serial(&s).0);
    answer
}

/// The bytes that arrived, with the end marked.
fn ended<'a>(serial: &mut [u8], store: &'a [u8]) -> Result<&'a [u8], Refused> {
    let mut s = arrival(serial, store)?;
    if s.overrun == 1 {
        return Err(LONG);
    }
    if s.ended == 1 {
        return Err(PHASE);
    }
    s.ended = 1;
    serial.copy_from_slice(&Image::of_serial(&s).0);
    Ok(&store[..s.arrived as usize])
}

pub fn serial_end_request(serial: &mut [u8], store: &[u8], form: u8, reading: u8, out: &mut [u8]) -> u32 {
    hand(out, 296, || {
        let strict = two(form, reading)?;
        of_request(reading::request(form, strict, ended(serial, store)?))
    })
}

pub fn serial_end_configuration(serial: &mut [u8], store: &[u8], form: u8, reading: u8, out: &mut [u8]) -> u32 {
    hand(out, 570, || {
        let strict = two(form, reading)?;
        of_configuration(reading::configuration(form, strict, ended(serial, store)?))
    })
}

pub fn replay(trace: &[u8], node: &mut [u8], out: &mut [u8]) -> u32 {
    if node.len() != 878 || out.len() != 251 {
        for (result, size) in [(node, 878), (out, 251)] {
            if result.len() == size {
                result.fill(0);
            }
        }
        return RANGE;
    }
    let run = TraceRun::walk(trace);
    match &run.node {
        Some(n) => node.copy_from_slice(&Image::of_node(n).0),
        None => node.fill(0),
    }
    let counts = run.kinds.iter().chain(&run.refusals).fold(Image::new(b'T'), |image, n| image.number(*n));
    let image = counts.number(run.switches).number(run.longest).bytes(&[run.stopped as u8]).number(run.place);
    out.copy_from_slice(&image.0);
    0
}
