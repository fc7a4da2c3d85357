//! The library's functions with Rust's types.
use crate::sys::*;
use crate::Refusal;

/// Which document a payload or node follows.
#[derive(Debug, Clone, Copy, PartialEq, Eq, Hash)]
pub enum Version {
    /// draft-ietf-6tisch-minimal-security-06.
    Draft,
    /// RFC 9031.
    Published,
}

/// How strict a reading is.
#[derive(Debug, Clone, Copy, PartialEq, Eq, Hash)]
pub enum Reading {
    /// Accepts any CBOR head.
    Any,
    /// Accepts shortest heads only, else [`Refusal::Loose`].
    Strict,
}

/// A node's role.
#[derive(Debug, Clone, Copy, PartialEq, Eq, Hash)]
pub enum Role {
    /// An ordinary node.
    Node,
    /// The border router (6LBR).
    Border,
}

/// The type of a frame; an acknowledgement counts as data.
#[derive(Debug, Clone, Copy, PartialEq, Eq, Hash)]
pub enum FrameType {
    /// A beacon.
    Beacon,
    /// Data, or an acknowledgement.
    Data,
}

/// What is due in a join attempt.
#[derive(Debug, Clone, Copy, PartialEq, Eq, Hash)]
pub enum Due {
    /// Nothing.
    NotYet,
    /// The join request is to be sent again.
    Send,
    /// The attempt was given up.
    GaveUp,
}

/// What a key's usage means for the radio.
#[derive(Debug, Clone, Copy, PartialEq, Eq, Hash)]
pub struct KeyUsage {
    /// Whether frames are encrypted; otherwise they are only authenticated.
    pub encrypted: bool,
    /// The length of the MIC in bytes: 4, 8 or 16.
    pub mic_length: usize,
}

/// A number of several bytes in a struct: big-endian.
pub fn number(bytes: &[u8]) -> u64 {
    bytes.iter().fold(0, |n, b| n << 8 | u64::from(*b))
}

/// Writes a number to a member of several bytes. `Range`: it does not fit, and the member stays.
pub fn put(bytes: &mut [u8], number: u64) -> Result<(), Refusal> {
    if bytes.len() < 8 && number >> (8 * bytes.len()) != 0 {
        return Err(Refusal::Range);
    }
    let mut rest = number;
    for byte in bytes.iter_mut().rev() {
        *byte = rest as u8;
        rest >>= 8;
    }
    Ok(())
}

/// The most frames that one reservation covers ([`Node::reserve`]).
pub const RESERVE_MOST: u64 = 65_536;

/// What was returned, or the refusal.
fn judged<T>(number: u32, value: T) -> Result<T, Refusal> {
    match Refusal::from_number(number) {
        None => Ok(value),
        Some(why) => Err(why),
    }
}

/// Panics if the linked library has another layout than this crate: then no image of one is an image of the other.
fn same_layout() {
    assert_eq!(layout(), LAYOUT, "libpothatch has another layout number than the crate");
}

/// A slice as C takes it.
fn lent(bytes: &[u8]) -> (*const u8, u64) {
    (bytes.as_ptr(), bytes.len() as u64)
}

fn lent_mut(bytes: &mut [u8]) -> (*mut u8, u64) {
    (bytes.as_mut_ptr(), bytes.len() as u64)
}

// SAFETY, for every call below: a pointer and a length come from one slice or struct that lives through the call, what may be written comes
// from a `&mut` and so overlaps nothing else, and the library writes within the lengths and keeps no pointer.

/// The layout number of the linked library.
pub fn layout() -> u32 {
    unsafe { pothatch_layout() }
}

/// The size of the struct of a kind, for instance `b'L'`.
pub fn size(kind: u8) -> Result<usize, Refusal> {
    let mut size = 0;
    let number = unsafe { pothatch_size(u64::from(kind), &mut size) };
    judged(number, size as usize)
}

/// The name that the library has for a refusal's number, padded with zeros.
pub fn refusal_name(number: u32) -> Result<[u8; 8], Refusal> {
    let mut name = [0; 8];
    let answer = unsafe { pothatch_refusal_name(u64::from(number), name.as_mut_ptr(), 8) };
    judged(answer, name)
}

/// What a key's usage means for the radio. `Range`: over 14.
pub fn key_usage(usage: u8) -> Result<KeyUsage, Refusal> {
    let (mut encrypted, mut mic_length) = (0, 0);
    let number = unsafe { pothatch_key_usage(u64::from(usage), &mut encrypted, &mut mic_length) };
    judged(number, KeyUsage { encrypted: encrypted == 1, mic_length: mic_length as usize })
}

impl Request {
    /// An empty join request, to be filled in and written. A parameter is written only if its report is [`TAKEN`].
    pub fn new() -> Request {
        Request { kind: b'Q', layout: LAYOUT as u8, ..Request::zeroed() }
    }

    /// Reads a payload.
    pub fn read(version: Version, reading: Reading, payload: &[u8]) -> Result<Request, Refusal> {
        same_layout();
        let mut out = Request::zeroed();
        let ((from, n), (to, room)) = (lent(payload), lent_mut(out.as_bytes_mut()));
        let number = unsafe { pothatch_request_read(version as u64, reading as u64, from, n, to, room) };
        judged(number, out)
    }

    /// Writes the payload and returns its length.
    pub fn write(&self, version: Version, dst: &mut [u8]) -> Result<usize, Refusal> {
        let ((from, n), (to, room), mut length) = (lent(self.as_bytes()), lent_mut(dst), 0);
        let number = unsafe { pothatch_request_write(version as u64, from, n, to, room, &mut length) };
        judged(number, length as usize)
    }
}

impl Default for Request {
    fn default() -> Request {
        Request::new()
    }
}

impl Configuration {
    /// An empty configuration, to be filled in and written. A parameter is written only if its report is [`TAKEN`], and a lease only if
    /// `leased` is 1.
    pub fn new() -> Configuration {
        Configuration { kind: b'C', layout: LAYOUT as u8, ..Configuration::zeroed() }
    }

    /// Reads a payload.
    pub fn read(version: Version, reading: Reading, payload: &[u8]) -> Result<Configuration, Refusal> {
        same_layout();
        let mut out = Configuration::zeroed();
        let ((from, n), (to, room)) = (lent(payload), lent_mut(out.as_bytes_mut()));
        let number = unsafe { pothatch_configuration_read(version as u64, reading as u64, from, n, to, room) };
        judged(number, out)
    }

    /// Writes the payload and returns its length.
    pub fn write(&self, version: Version, dst: &mut [u8]) -> Result<usize, Refusal> {
        let ((from, n), (to, room), mut length) = (lent(self.as_bytes()), lent_mut(dst), 0);
        let number = unsafe { pothatch_configuration_write(version as u64, from, n, to, room, &mut length) };
        judged(number, length as usize)
    }

    /// Merges this configuration and a later one, both of the draft: each parameter from the second where it is taken there.
    pub fn merge(&self, second: &Configuration) -> Result<Configuration, Refusal> {
        let mut out = Configuration::zeroed();
        let ((first, n), (other, m), (to, room)) = (lent(self.as_bytes()), lent(second.as_bytes()), lent_mut(out.as_bytes_mut()));
        let number = unsafe { pothatch_configuration_merge(first, n, other, m, to, room) };
        judged(number, out)
    }
}

impl Default for Configuration {
    fn default() -> Configuration {
        Configuration::new()
    }
}

/// `image` and `from_image` of a state.
macro_rules! stored {
    ($name:ident, $size:literal) => {
        impl $name {
            /// The image, to be stored.
            pub const fn image(&self) -> &[u8; $size] {
                self.as_bytes()
            }

            /// The state of a stored image. Bytes that are not a valid image make a state whose calls are refused with `Range`.
            pub fn from_image(image: &[u8; $size]) -> $name {
                same_layout();
                let mut state = $name::zeroed();
                state.as_bytes_mut().copy_from_slice(image);
                state
            }
        }
    };
}

stored!(Node, 878);
stored!(Ledger, 16);
stored!(Proxy, 26);
stored!(Serial, 6);

impl Node {
    /// Makes an idle node. Without a network identifier only a border router of the draft can start.
    pub fn new(version: Version, role: Role, network: Option<&[u8]>) -> Result<Node, Refusal> {
        same_layout();
        let mut node = Node::zeroed();
        let ((from, n), (to, room)) = (lent(network.unwrap_or(&[])), lent_mut(node.as_bytes_mut()));
        let given = u64::from(network.is_some());
        let number = unsafe { pothatch_node_make(version as u64, role as u64, given, from, n, to, room) };
        judged(number, node)
    }

    /// Starts a join attempt, writes the join request and returns its length. Times are milliseconds.
    pub fn start(&mut self, time: u64, timeout: u64, dst: &mut [u8]) -> Result<usize, Refusal> {
        let ((node, n), (to, room), mut length) = (lent_mut(self.as_bytes_mut()), lent_mut(dst), 0);
        let number = unsafe { pothatch_node_start(node, n, time, timeout, to, room, &mut length) };
        judged(number, length as usize)
    }

    /// What is due in the join attempt, at most one step a call.
    pub fn poll(&mut self, time: u64) -> Result<Due, Refusal> {
        let ((node, n), mut due) = (lent_mut(self.as_bytes_mut()), 0);
        let number = unsafe { pothatch_node_poll(node, n, time, &mut due) };
        let what = match due {
            2 => Due::Send,
            3 => Due::GaveUp,
            _ => Due::NotYet,
        };
        judged(number, what)
    }

    /// Delivers a join answer, which must have been authenticated.
    pub fn answer(&mut self, time: u64, payload: &[u8]) -> Result<Reports, Refusal> {
        let mut reports = Reports::zeroed();
        let ((node, n), (from, m), (to, room)) = (lent_mut(self.as_bytes_mut()), lent(payload), lent_mut(reports.as_bytes_mut()));
        let number = unsafe { pothatch_node_answer(node, n, time, from, m, to, room) };
        judged(number, reports)
    }

    /// Delivers a parameter update, which must have been authenticated.
    pub fn update(&mut self, time: u64, payload: &[u8]) -> Result<Reports, Refusal> {
        let mut reports = Reports::zeroed();
        let ((node, n), (from, m), (to, room)) = (lent_mut(self.as_bytes_mut()), lent(payload), lent_mut(reports.as_bytes_mut()));
        let number = unsafe { pothatch_node_update(node, n, time, from, m, to, room) };
        judged(number, reports)
    }

    /// Whether the short address holds.
    pub fn holds(&self, time: u64) -> Result<bool, Refusal> {
        let ((node, n), mut holds) = (lent(self.as_bytes()), 0);
        let number = unsafe { pothatch_node_holds(node, n, time, &mut holds) };
        judged(number, holds == 1)
    }

    /// The key and the counter to send a frame with; the counter rises in the node.
    pub fn send(&mut self, frame_type: FrameType) -> Result<FrameKey, Refusal> {
        let mut key = FrameKey::zeroed();
        let ((node, n), (to, room)) = (lent_mut(self.as_bytes_mut()), lent_mut(key.as_bytes_mut()));
        let number = unsafe { pothatch_node_send(node, n, frame_type as u64, to, room) };
        judged(number, key)
    }

    /// Reserves the counters of the next `count` frames of a type, so that the node is stored once for so many frames: returns the image of
    /// the node as it is after these sendings. Store it; then send up to `count` frames of this type. After a restart continue with the
    /// stored image: it uses none of these counters again. Reserve and store anew before the next frame when the frames are used up, when a
    /// frame of the other type is due, and when an accepted start, answer, update or verified frame has changed the node. `Range`: not a
    /// valid node (with `count` 0 too), or a count over [`RESERVE_MOST`]. `Silent`: no key, or not so many counters are left.
    pub fn reserve(&self, frame_type: FrameType, count: u64) -> Result<[u8; 878], Refusal> {
        if count > RESERVE_MOST {
            return Err(Refusal::Range);
        }
        let mut stored = Node::from_image(self.image());
        if count == 0 {
            // a trial
            return match stored.send(frame_type) {
                Err(Refusal::Range) => Err(Refusal::Range),
                _ => Ok(*self.image()),
            };
        }
        for _ in 0..count {
            stored.send(frame_type)?;
        }
        Ok(*stored.image())
    }

    /// The key to receive a frame with.
    pub fn receive(&self, frame_type: FrameType, identifier: u8) -> Result<FrameKey, Refusal> {
        let mut key = FrameKey::zeroed();
        let ((node, n), (to, room)) = (lent(self.as_bytes()), lent_mut(key.as_bytes_mut()));
        let number = unsafe { pothatch_node_receive(node, n, frame_type as u64, u64::from(identifier), to, room) };
        judged(number, key)
    }

    /// The radio verified such a frame. Returns whether the pending set became active.
    pub fn verified(&mut self, frame_type: FrameType, identifier: u8) -> Result<bool, Refusal> {
        let ((node, n), mut change) = (lent_mut(self.as_bytes_mut()), 0);
        let number = unsafe { pothatch_node_verified(node, n, frame_type as u64, u64::from(identifier), &mut change) };
        judged(number, change == 2)
    }
}

/// The ledger's memory, [`PLACE`] bytes for each address, is lent to each call.
impl Ledger {
    /// Opens a ledger over memory that may hold earlier grants of the same range; for a fresh one the memory is all 0.
    pub fn open(first: u64, size: u64, memory: &[u8]) -> Result<Ledger, Refusal> {
        same_layout();
        let mut ledger = Ledger::zeroed();
        let ((from, n), (to, room)) = (lent(memory), lent_mut(ledger.as_bytes_mut()));
        let number = unsafe { pothatch_ledger_open(first, size, from, n, to, room) };
        judged(number, ledger)
    }

    /// Grants the board the lowest free address, or the one that it holds.
    pub fn grant(&mut self, memory: &mut [u8], board: &[u8; 8]) -> Result<u16, Refusal> {
        let ((ledger, n), (to, room), mut address) = (lent_mut(self.as_bytes_mut()), lent_mut(memory), 0);
        let number = unsafe { pothatch_ledger_grant(ledger, n, to, room, board.as_ptr(), 8, &mut address) };
        judged(number, address)
    }

    /// Takes the board's address back.
    pub fn give_back(&mut self, memory: &mut [u8], board: &[u8; 8]) -> Result<u16, Refusal> {
        let ((ledger, n), (to, room), mut address) = (lent_mut(self.as_bytes_mut()), lent_mut(memory), 0);
        let number = unsafe { pothatch_ledger_give_back(ledger, n, to, room, board.as_ptr(), 8, &mut address) };
        judged(number, address)
    }

    /// How many addresses are free.
    pub fn free(&self) -> Result<u64, Refusal> {
        let ((ledger, n), mut count) = (lent(self.as_bytes()), 0);
        let number = unsafe { pothatch_ledger_free(ledger, n, &mut count) };
        judged(number, count)
    }
}

/// Seals `text` with AES-CCM-16-64-128 into `dst` and returns the length, that of the text and [`TAG`](crate::TAG) bytes more. Use each
/// nonce once under a key.
pub fn seal(key: &[u8; 16], nonce: &[u8; 13], associated: &[u8], text: &[u8], dst: &mut [u8]) -> Result<usize, Refusal> {
    let ((data, m), (from, n), (to, room), mut length) = (lent(associated), lent(text), lent_mut(dst), 0);
    let number = unsafe { pothatch_seal(key.as_ptr(), 16, nonce.as_ptr(), 13, data, m, from, n, to, room, &mut length) };
    judged(number, length as usize)
}

/// Opens what [`seal`] made and returns the text's length.
pub fn unseal(key: &[u8; 16], nonce: &[u8; 13], associated: &[u8], sealed: &[u8], dst: &mut [u8]) -> Result<usize, Refusal> {
    let ((data, m), (from, n), (to, room), mut length) = (lent(associated), lent(sealed), lent_mut(dst), 0);
    let number = unsafe { pothatch_unseal(key.as_ptr(), 16, nonce.as_ptr(), 13, data, m, from, n, to, room, &mut length) };
    judged(number, length as usize)
}

impl Proxy {
    /// Makes a join proxy that has issued nothing. Never use a key that a proxy had before.
    pub fn new(key: &[u8; 16]) -> Result<Proxy, Refusal> {
        same_layout();
        let mut proxy = Proxy::zeroed();
        let (to, room) = lent_mut(proxy.as_bytes_mut());
        let number = unsafe { pothatch_proxy_make(key.as_ptr(), 16, to, room) };
        judged(number, proxy)
    }

    /// Sets a key that no proxy had before; numbers begin at 0 again.
    pub fn set_key(&mut self, key: &[u8; 16]) -> Result<(), Refusal> {
        let (proxy, n) = lent_mut(self.as_bytes_mut());
        let number = unsafe { pothatch_proxy_set_key(proxy, n, key.as_ptr(), 16) };
        judged(number, ())
    }

    /// Issues the option body for a pledge.
    pub fn issue(&mut self, interface_id: &[u8; 8], port: u16, token: &[u8]) -> Result<[u8; BODY], Refusal> {
        let mut body = [0; BODY];
        let ((proxy, n), (from, m), (to, room)) = (lent_mut(self.as_bytes_mut()), lent(token), lent_mut(&mut body));
        let number = unsafe { pothatch_proxy_issue(proxy, n, interface_id.as_ptr(), 8, u64::from(port), from, m, to, room) };
        judged(number, body)
    }

    /// Whom a response with this body goes to.
    pub fn judge(&self, body: &[u8]) -> Result<Pledge, Refusal> {
        let mut pledge = Pledge::zeroed();
        let ((proxy, n), (from, m), (to, room)) = (lent(self.as_bytes()), lent(body), lent_mut(pledge.as_bytes_mut()));
        let number = unsafe { pothatch_proxy_judge(proxy, n, from, m, to, room) };
        judged(number, pledge)
    }
}

/// The store, [`PAYLOAD_MOST`] bytes, is lent to each call.
impl Serial {
    /// Nothing has arrived.
    pub fn new() -> Serial {
        let mut serial = Serial::zeroed();
        serial.reset();
        serial
    }

    /// Begins anew.
    pub fn reset(&mut self) {
        same_layout();
        let (serial, n) = lent_mut(self.as_bytes_mut());
        // the length is right, so the call is accepted
        unsafe { pothatch_serial_reset(serial, n) };
    }

    /// Takes one more part.
    pub fn part(&mut self, store: &mut [u8], part: &[u8]) -> Result<(), Refusal> {
        let ((serial, n), (to, room), (from, m)) = (lent_mut(self.as_bytes_mut()), lent_mut(store), lent(part));
        let number = unsafe { pothatch_serial_part(serial, n, to, room, from, m) };
        judged(number, ())
    }

    /// Marks the end and reads what arrived as a join request.
    pub fn end_request(&mut self, store: &[u8], version: Version, reading: Reading) -> Result<Request, Refusal> {
        let mut out = Request::zeroed();
        let ((serial, n), (from, m), (to, room)) = (lent_mut(self.as_bytes_mut()), lent(store), lent_mut(out.as_bytes_mut()));
        let number = unsafe { pothatch_serial_end_request(serial, n, from, m, version as u64, reading as u64, to, room) };
        judged(number, out)
    }

    /// Marks the end and reads what arrived as a configuration.
    pub fn end_configuration(&mut self, store: &[u8], version: Version, reading: Reading) -> Result<Configuration, Refusal> {
        let mut out = Configuration::zeroed();
        let ((serial, n), (from, m), (to, room)) = (lent_mut(self.as_bytes_mut()), lent(store), lent_mut(out.as_bytes_mut()));
        let number = unsafe { pothatch_serial_end_configuration(serial, n, from, m, version as u64, reading as u64, to, room) };
        judged(number, out)
    }
}

impl Default for Serial {
    fn default() -> Serial {
        Serial::new()
    }
}

/// Replays a recorded trace: the node that its calls give, if the trace made one, and what was found. Never send with that node: its
/// counters are 0.
pub fn replay(trace: &[u8]) -> Result<(Option<Node>, Replayed), Refusal> {
    same_layout();
    let (mut node, mut out) = (Node::zeroed(), Replayed::zeroed());
    let ((from, m), (made, n), (to, room)) = (lent(trace), lent_mut(node.as_bytes_mut()), lent_mut(out.as_bytes_mut()));
    let number = unsafe { pothatch_replay(from, m, made, n, to, room) };
    judged(number, ((node.kind() != 0).then_some(node), out))
}
