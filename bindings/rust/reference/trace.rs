//! A recorded trace, walked record by record (request 4); draft form.
use super::node::{make, Node};
use super::Refused;

#[derive(Default)]
pub struct TraceRun {
    pub node: Option<Node>,
    pub kinds: [u64; 6],
    pub refusals: [u64; 22],
    pub switches: u64,
    pub longest: u64,
    pub stopped: bool,
    pub place: u64,
    started: u64,
}

fn number(bytes: &[u8]) -> u64 {
    bytes.iter().fold(0, |n, b| n << 8 | *b as u64)
}

impl TraceRun {
    fn counted(&mut self, done: Result<(), Refused>) {
        if let Err(why) = done {
            self.refusals[why as usize - 1] += 1;
        }
    }

    /// Kind 1; none where a field is bad.
    fn new_node(&mut self, body: &[u8]) -> Option<()> {
        let (role, len) = (body[0], body[1]);
        let used = if len == 255 { 0 } else { len as usize };
        if role > 1 || used > 16 || body[2 + used..].iter().any(|b| *b != 0) {
            return None;
        }
        self.node = make(0, role, (len != 255).then_some(&body[2..2 + used])).ok();
        Some(())
    }

    fn deliver(&mut self, joining: bool, body: &[u8]) -> Option<()> {
        let (time, size) = (number(&body[..8]), number(&body[8..10]) as usize);
        let node = self.node.as_mut()?;
        if size > 256 || body[10 + size..].iter().any(|b| *b != 0) {
            return None;
        }
        let done = node.deliver(joining, time, &body[10..10 + size]).map(|_| ());
        if joining && done.is_ok() {
            self.longest = self.longest.max(time - self.started);
        }
        self.counted(done);
        Some(())
    }

    fn record(&mut self, kind: u8, body: &[u8]) -> Option<()> {
        match kind {
            1 => self.new_node(body)?,
            2 => {
                let time = number(&body[..8]);
                let done = self.node.as_mut()?.start(time, number(&body[8..]), &mut [0; 32]).map(|_| ());
                if done.is_ok() {
                    self.started = time;
                }
                self.counted(done);
            }
            3 | 4 => self.deliver(kind == 3, body)?,
            5 => {
                let node = self.node.as_mut()?;
                if body[0] > 1 {
                    return None;
                }
                let done = node.verified(body[0], body[1]);
                self.switches += (done == Ok(true)) as u64;
                self.counted(done.map(|_| ()));
            }
            _ => {
                let done = self.node.as_mut()?.poll(number(body)).map(|_| ());
                self.counted(done);
            }
        }
        self.kinds[kind as usize - 1] += 1;
        Some(())
    }

    pub fn walk(trace: &[u8]) -> TraceRun {
        let mut run = TraceRun::default();
        let mut at = 0;
        while at < trace.len() && !run.stopped {
            let size = match trace[at] {
                1 => 19,
                2 => 13,
                3 | 4 => 267,
                5 => 3,
                6 => 9,
                _ => usize::MAX,
            };
            if size > trace.len() - at || run.record(trace[at], &trace[at + 1..at + size]).is_none() {
                run.stopped = true;
            } else {
                at += size;
            }
        }
        run.place = at as u64;
        run
    }
}
