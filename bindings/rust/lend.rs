//! A call as data: its numbers and slices. It is made of the library and of the second implementation, and what the two leave is compared:
//! the number, every byte of what is lent, and guard bytes around each slice.
use crate::reference::calls;
use pothatch::sys::*;

#[derive(Debug, Clone, Copy, PartialEq)]
pub enum Function {
    RequestRead,
    ConfigurationRead,
    RequestWrite,
    ConfigurationWrite,
    Merge,
    Make,
    Start,
    Poll,
    Answer,
    Update,
    Holds,
    Send,
    Receive,
    Verified,
    Reset,
    Part,
    EndRequest,
    EndConfiguration,
    Replay,
}
use Function::*;

/// `numbers`, slices that are read and slices that may be written are in the order of the parameters; `told` is the number handed back.
#[derive(Debug, Clone)]
pub struct Call {
    pub function: Function,
    pub numbers: Vec<u64>,
    pub read: Vec<Vec<u8>>,
    pub written: Vec<Vec<u8>>,
    pub told: u64,
}

const GUARD: usize = 16;
const FILL: u8 = 0xA5;
/// What is in a number before a call is to write it; it fits 32 bits, as some of them have.
const BEFORE: u64 = 0x5A5A_5A5A;

/// A slice between guard bytes.
struct Lent(Vec<u8>);

impl Lent {
    fn new(bytes: &[u8]) -> Lent {
        let mut all = vec![FILL; bytes.len() + 2 * GUARD];
        all[GUARD..GUARD + bytes.len()].copy_from_slice(bytes);
        Lent(all)
    }

    fn ptr(&mut self) -> *mut u8 {
        unsafe { self.0.as_mut_ptr().add(GUARD) }
    }

    fn len(&self) -> u64 {
        (self.0.len() - 2 * GUARD) as u64
    }

    fn guarded(&self) -> bool {
        let end = self.0.len() - GUARD;
        self.0[..GUARD].iter().chain(&self.0[end..]).all(|b| *b == FILL)
    }

    fn bytes(&self) -> &[u8] {
        &self.0[GUARD..self.0.len() - GUARD]
    }
}

impl Call {
    pub fn new(function: Function, numbers: &[u64], read: &[&[u8]], written: &[&[u8]]) -> Call {
        let owned = |slices: &[&[u8]]| slices.iter().map(|s| s.to_vec()).collect();
        Call { function, numbers: numbers.to_vec(), read: owned(read), written: owned(written), told: BEFORE }
    }

    /// Whether the call has a number to hand back.
    pub fn tells(&self) -> bool {
        matches!(self.function, RequestWrite | ConfigurationWrite | Start | Poll | Holds | Verified)
    }

    /// What the second implementation answers; what is lent is changed as it says.
    pub fn by_plain(&mut self) -> u32 {
        let (n, r, told) = (&self.numbers, &self.read, &mut self.told);
        // a code that no byte holds is undefined, as 255 is, and an identifier as 0 is
        let byte = |i: usize| u8::try_from(n[i]).unwrap_or(255);
        let identifier = |i: usize| u8::try_from(n[i]).unwrap_or(0);
        let mut w = self.written.iter_mut().map(|v| v.as_mut_slice());
        let mut next = || w.next().unwrap();
        match self.function {
            RequestRead => calls::request_read(byte(0), byte(1), &r[0], next()),
            ConfigurationRead => calls::configuration_read(byte(0), byte(1), &r[0], next()),
            RequestWrite => calls::request_write(byte(0), &r[0], next(), told),
            ConfigurationWrite => calls::configuration_write(byte(0), &r[0], next(), told),
            Merge => calls::configuration_merge(&r[0], &r[1], next()),
            Make => calls::node_make(byte(0), byte(1), byte(2), &r[0], next()),
            Start => calls::node_start(next(), n[0], n[1], next(), told),
            Poll => calls::node_poll(next(), n[0], told),
            Answer => calls::node_deliver(true, next(), n[0], &r[0], next()),
            Update => calls::node_deliver(false, next(), n[0], &r[0], next()),
            Holds => calls::node_holds(&r[0], n[0], told),
            Send => calls::node_send(next(), byte(0), next()),
            Receive => calls::node_receive(&r[0], byte(0), identifier(1), next()),
            Verified => calls::node_verified(next(), byte(0), identifier(1), told),
            Reset => calls::serial_reset(next()),
            Part => calls::serial_part(next(), next(), &r[0]),
            EndRequest => calls::serial_end_request(next(), &r[0], byte(0), byte(1), next()),
            EndConfiguration => calls::serial_end_configuration(next(), &r[0], byte(0), byte(1), next()),
            Replay => calls::replay(&r[0], next(), next()),
        }
    }

    /// What the library answers; none where a guard byte or a slice that is only read was changed.
    pub fn by_library(&mut self) -> Option<u32> {
        let n = &self.numbers;
        let mut read: Vec<Lent> = self.read.iter().map(|b| Lent::new(b)).collect();
        let mut written: Vec<Lent> = self.written.iter().map(|b| Lent::new(b)).collect();
        let r: Vec<(*const u8, u64)> = read.iter_mut().map(|l| (l.ptr() as *const u8, l.len())).collect();
        let w: Vec<(*mut u8, u64)> = written.iter_mut().map(|l| (l.ptr(), l.len())).collect();
        let (mut long, mut word) = (self.told, self.told as u32);
        let number = unsafe {
            match self.function {
                RequestRead => pothatch_request_read(n[0], n[1], r[0].0, r[0].1, w[0].0, w[0].1),
                ConfigurationRead => pothatch_configuration_read(n[0], n[1], r[0].0, r[0].1, w[0].0, w[0].1),
                RequestWrite => pothatch_request_write(n[0], r[0].0, r[0].1, w[0].0, w[0].1, &mut long),
                ConfigurationWrite => pothatch_configuration_write(n[0], r[0].0, r[0].1, w[0].0, w[0].1, &mut long),
                Merge => pothatch_configuration_merge(r[0].0, r[0].1, r[1].0, r[1].1, w[0].0, w[0].1),
                Make => pothatch_node_make(n[0], n[1], n[2], r[0].0, r[0].1, w[0].0, w[0].1),
                Start => pothatch_node_start(w[0].0, w[0].1, n[0], n[1], w[1].0, w[1].1, &mut long),
                Poll => pothatch_node_poll(w[0].0, w[0].1, n[0], &mut word),
                Answer => pothatch_node_answer(w[0].0, w[0].1, n[0], r[0].0, r[0].1, w[1].0, w[1].1),
                Update => pothatch_node_update(w[0].0, w[0].1, n[0], r[0].0, r[0].1, w[1].0, w[1].1),
                Holds => pothatch_node_holds(r[0].0, r[0].1, n[0], &mut word),
                Send => pothatch_node_send(w[0].0, w[0].1, n[0], w[1].0, w[1].1),
                Receive => pothatch_node_receive(r[0].0, r[0].1, n[0], n[1], w[0].0, w[0].1),
                Verified => pothatch_node_verified(w[0].0, w[0].1, n[0], n[1], &mut word),
                Reset => pothatch_serial_reset(w[0].0, w[0].1),
                Part => pothatch_serial_part(w[0].0, w[0].1, w[1].0, w[1].1, r[0].0, r[0].1),
                EndRequest => pothatch_serial_end_request(w[0].0, w[0].1, r[0].0, r[0].1, n[0], n[1], w[1].0, w[1].1),
                EndConfiguration => pothatch_serial_end_configuration(w[0].0, w[0].1, r[0].0, r[0].1, n[0], n[1], w[1].0, w[1].1),
                Replay => pothatch_replay(r[0].0, r[0].1, w[0].0, w[0].1, w[1].0, w[1].1),
            }
        };
        self.told = if matches!(self.function, Poll | Holds | Verified) { word as u64 } else { long };
        let kept = read.iter().zip(&self.read).all(|(l, was)| l.guarded() && l.bytes() == was.as_slice());
        let guarded = written.iter().all(Lent::guarded);
        for (bytes, lent) in self.written.iter_mut().zip(&written) {
            bytes.copy_from_slice(lent.bytes());
        }
        (kept && guarded).then_some(number)
    }

    /// The call as a record that a program without this implementation can play: the function, what is lent, and what is left of it.
    pub fn record(&self, after: &Call, number: u32) -> Vec<u8> {
        let mut out = vec![self.function as u8, self.numbers.len() as u8, self.read.len() as u8, self.written.len() as u8];
        self.numbers.iter().for_each(|n| out.extend(n.to_be_bytes()));
        for slice in &self.read {
            out.extend((slice.len() as u32).to_be_bytes());
            out.extend(slice);
        }
        for (slice, left) in self.written.iter().zip(&after.written) {
            out.extend((slice.len() as u32).to_be_bytes());
            out.extend(slice);
            out.extend(left);
        }
        out.extend(after.told.to_be_bytes());
        out.extend(number.to_be_bytes());
        out
    }
}
