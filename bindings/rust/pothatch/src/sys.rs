//! The functions and structs of pothatch.h, as C declares them. Made by bindings/generate.py.
//!
//! The rules for these functions (what each call may write, lengths, aliasing) are in pothatch.h.

/// The layout number of the images that this crate was made for.
pub const LAYOUT: u32 = 1;

/// version: draft-ietf-6tisch-minimal-security-06.
pub const DRAFT: u8 = 0;
/// version: RFC 9031.
pub const PUBLISHED: u8 = 1;

/// reading: accepts any CBOR head.
pub const READ_ANY: u8 = 0;
/// reading: accepts shortest heads only, else LOOSE.
pub const READ_STRICT: u8 = 1;

/// role: ordinary node.
pub const NODE: u8 = 0;
/// role: border router (6LBR).
pub const BORDER: u8 = 1;

/// report: not in the payload.
pub const ABSENT: u8 = 0;
/// report: taken.
pub const TAKEN: u8 = 1;
/// report: discarded; in RFC 9031 malformed and reported.
pub const DISCARDED: u8 = 2;

/// phase: not started.
pub const IDLE: u8 = 0;
/// phase: waiting for the join answer.
pub const WAITING: u8 = 1;
/// phase: joined.
pub const JOINED: u8 = 2;
/// phase: given up.
pub const GAVE_UP: u8 = 3;

/// frame_type: beacon.
pub const BEACON: u8 = 0;
/// frame_type: data or acknowledgement.
pub const DATA: u8 = 1;

/// due: nothing.
pub const DUE_NOT_YET: u8 = 1;
/// due: send the join request again.
pub const DUE_SEND: u8 = 2;
/// due: the attempt was given up.
pub const DUE_GAVE_UP: u8 = 3;

/// holds: the short address holds.
pub const HOLDS: u8 = 1;
/// holds: no short address, or its lease is over.
pub const LAPSED: u8 = 2;

/// change: the keys stay.
pub const KEPT: u8 = 1;
/// change: the pending set became the active one.
pub const SWITCHED: u8 = 2;

/// Number of bytes of a payload, and of a serial store.
pub const PAYLOAD_MOST: usize = 256;
/// Number of bytes that a start writes at most.
pub const REQUEST_MOST: usize = 38;
/// Number of bytes of a join proxy's option body.
pub const BODY: usize = 31;
/// Number of bytes that sealing adds to a text.
pub const TAG: usize = 8;
/// Number of bytes of a ledger's memory for each address.
pub const PLACE: usize = 9;

/// One link-layer key.
///
/// 27 bytes, all public.
#[repr(C)]
#[derive(Clone, Copy, PartialEq, Eq)]
pub struct Key {
    /// 1 to 255.
    pub identifier: u8,
    /// 0 to 14; pothatch_key_usage says what it means.
    pub usage: u8,
    /// Value.
    pub value: [u8; 16],
    /// length of the additional information (RFC 9031): 0, 4 or 8.
    pub info_len: u8,
    /// zeros after the first info_len.
    pub info: [u8; 8],
}

image!(Key, 27);

/// A set of keys.
///
/// 217 bytes, all public.
#[repr(C)]
#[derive(Clone, Copy, PartialEq, Eq)]
pub struct KeySet {
    /// 1 to 8; 0: no set.
    pub count: u8,
    /// those after the first count do not count, but their info is judged.
    pub keys: [Key; 8],
}

image!(KeySet, 217);

/// A JRC address, network identifier or prefix.
///
/// 18 bytes, all public.
#[repr(C)]
#[derive(Clone, Copy, PartialEq, Eq)]
pub struct Octets {
    /// written only if TAKEN.
    pub report: u8,
    /// 0 to 16, a JRC address 16; an empty one is not an absent one.
    pub len: u8,
    /// Bytes.
    pub bytes: [u8; 16],
}

image!(Octets, 18);

/// A short address and its lease.
///
/// 12 bytes, all public.
#[repr(C)]
#[derive(Clone, Copy, PartialEq, Eq)]
pub struct Address {
    /// written only if TAKEN.
    pub report: u8,
    /// FFFE and FFFF are not addresses.
    pub bytes: [u8; 2],
    /// 0: no end, and `lease` is not written; 1: for `lease`.
    pub leased: u8,
    /// seconds; in RFC 9031 hours. Ask pothatch_node_holds rather than converting it.
    pub lease: [u8; 8],
}

image!(Address, 12);

/// The members of a CBOR array, in shortest heads, one after another.
///
/// 256 bytes, all public.
#[repr(C)]
#[derive(Clone, Copy, PartialEq, Eq)]
pub struct List {
    /// written only if TAKEN.
    pub report: u8,
    /// members.
    pub count: u8,
    /// bytes, 0 to 253.
    pub len: u8,
    /// Bytes.
    pub bytes: [u8; 253],
}

image!(List, 256);

/// A join rate.
///
/// 9 bytes, all public.
#[repr(C)]
#[derive(Clone, Copy, PartialEq, Eq)]
pub struct Rate {
    /// written only if TAKEN.
    pub report: u8,
    /// bytes a second.
    pub value: [u8; 8],
}

image!(Rate, 9);

/// Error reports of parameters, in payload order.
///
/// 11 bytes, all public.
#[repr(C)]
#[derive(Clone, Copy, PartialEq, Eq)]
pub struct Faults {
    /// 0 to 5.
    pub count: u8,
    /// error code (0 unsupported, 1 malformed), label.
    pub entry: [[u8; 2]; 5],
}

image!(Faults, 11);

/// A join request. A parameter is written only if its report is TAKEN.
///
/// 296 bytes, all public.
#[repr(C)]
#[derive(Clone, Copy, PartialEq, Eq)]
pub struct Request {
    /// 'Q'.
    pub kind: u8,
    /// Layout.
    pub layout: u8,
    /// Role.
    pub role: u8,
    /// Network.
    pub network: Octets,
    /// label 8 (RFC 9031): for each report its code, its label and null.
    pub unsupported: List,
    /// what was bad in this request (RFC 9031).
    pub faults: Faults,
    /// number of unknown labels.
    pub passed: [u8; 8],
}

image!(Request, 296);

/// A configuration. A parameter is written only if its report (keys_report) is TAKEN, a lease only if leased is 1.
///
/// 570 bytes, all public.
#[repr(C)]
#[derive(Clone, Copy, PartialEq, Eq)]
pub struct Configuration {
    /// 'C'.
    pub kind: u8,
    /// Layout.
    pub layout: u8,
    /// TAKEN: the keys are written.
    pub keys_report: u8,
    /// Keys.
    pub keys: KeySet,
    /// Address.
    pub address: Address,
    /// Jrc.
    pub jrc: Octets,
    /// draft.
    pub network: Octets,
    /// draft.
    pub prefix: Octets,
    /// byte strings (RFC 9031).
    pub blacklist: List,
    /// join rate (RFC 9031).
    pub rate: Rate,
    /// RFC 9031: each known label of the payload, good or bad, in payload order, with code 1.
    pub came: Faults,
    /// number of unknown labels.
    pub passed: [u8; 8],
}

image!(Configuration, 570);

/// What a node made of each parameter.
///
/// 17 bytes, all public.
#[repr(C)]
#[derive(Clone, Copy, PartialEq, Eq)]
pub struct Reports {
    /// 'R'.
    pub kind: u8,
    /// Layout.
    pub layout: u8,
    /// Keys.
    pub keys: u8,
    /// Address.
    pub address: u8,
    /// Jrc.
    pub jrc: u8,
    /// Network.
    pub network: u8,
    /// Prefix.
    pub prefix: u8,
    /// Blacklist.
    pub blacklist: u8,
    /// Rate.
    pub rate: u8,
    /// number of unknown labels.
    pub passed: [u8; 8],
}

image!(Reports, 17);

/// The key for a frame.
///
/// 33 bytes, all public.
#[repr(C)]
#[derive(Clone, Copy, PartialEq, Eq)]
pub struct FrameKey {
    /// 'K'.
    pub kind: u8,
    /// Layout.
    pub layout: u8,
    /// Key.
    pub key: Key,
    /// the counter to send with; 0 for receiving.
    pub counter: [u8; 4],
}

image!(FrameKey, 33);

/// A key set with the next frame counter of each key.
///
/// 249 bytes, all public.
#[repr(C)]
#[derive(Clone, Copy, PartialEq, Eq)]
pub struct CountedSet {
    /// Set.
    pub set: KeySet,
    /// Counters.
    pub counters: [[u8; 4]; 8],
}

image!(CountedSet, 249);

/// A join attempt; times in milliseconds.
///
/// 26 bytes, all public.
#[repr(C)]
#[derive(Clone, Copy, PartialEq, Eq)]
pub struct Attempt {
    /// Phase.
    pub phase: u8,
    /// the last accepted time.
    pub clock: [u8; 8],
    /// when the request was last sent.
    pub sent: [u8; 8],
    /// how long after that the next step is due.
    pub timeout: [u8; 8],
    /// retransmissions made, 0 to 4.
    pub count: u8,
}

image!(Attempt, 26);

/// A node.
///
/// 878 bytes; changed by calls only.
#[repr(C)]
pub struct Node {
    /// 'N'.
    pub(crate) kind: u8,
    /// Layout.
    pub(crate) layout: u8,
    /// Role.
    pub(crate) role: u8,
    /// Attempt.
    pub(crate) attempt: Attempt,
    /// Active.
    pub(crate) active: CountedSet,
    /// Pending.
    pub(crate) pending: CountedSet,
    /// Address.
    pub(crate) address: Address,
    /// when the address was received.
    pub(crate) received: [u8; 8],
    /// Jrc.
    pub(crate) jrc: Octets,
    /// Network.
    pub(crate) network: Octets,
    /// Prefix.
    pub(crate) prefix: Octets,
    /// version, fixed when the node is made.
    pub(crate) form: u8,
    /// Blacklist.
    pub(crate) blacklist: List,
    /// Rate.
    pub(crate) rate: Rate,
    /// what the next request lists.
    pub(crate) faults: Faults,
}

image!(Node, 878);

impl Node {
    /// 'N'.
    pub const fn kind(&self) -> u8 {
        self.kind
    }
    /// Layout.
    pub const fn layout(&self) -> u8 {
        self.layout
    }
    /// Role.
    pub const fn role(&self) -> u8 {
        self.role
    }
    /// Attempt.
    pub const fn attempt(&self) -> &Attempt {
        &self.attempt
    }
    /// Active.
    pub const fn active(&self) -> &CountedSet {
        &self.active
    }
    /// Pending.
    pub const fn pending(&self) -> &CountedSet {
        &self.pending
    }
    /// Address.
    pub const fn address(&self) -> &Address {
        &self.address
    }
    /// when the address was received.
    pub const fn received(&self) -> &[u8; 8] {
        &self.received
    }
    /// Jrc.
    pub const fn jrc(&self) -> &Octets {
        &self.jrc
    }
    /// Network.
    pub const fn network(&self) -> &Octets {
        &self.network
    }
    /// Prefix.
    pub const fn prefix(&self) -> &Octets {
        &self.prefix
    }
    /// version, fixed when the node is made.
    pub const fn form(&self) -> u8 {
        self.form
    }
    /// Blacklist.
    pub const fn blacklist(&self) -> &List {
        &self.blacklist
    }
    /// Rate.
    pub const fn rate(&self) -> &Rate {
        &self.rate
    }
    /// what the next request lists.
    pub const fn faults(&self) -> &Faults {
        &self.faults
    }
}

/// A ledger; its addresses are in lent memory, nine bytes each.
///
/// 16 bytes; changed by calls only.
#[repr(C)]
pub struct Ledger {
    /// 'L'.
    pub(crate) kind: u8,
    /// Layout.
    pub(crate) layout: u8,
    /// lowest address of the range.
    pub(crate) first: [u8; 2],
    /// number of addresses.
    pub(crate) size: [u8; 2],
    /// free addresses.
    pub(crate) left: [u8; 2],
    /// a bit for each 64 addresses, the lowest in the last byte's lowest bit: whether one is free.
    pub(crate) marks: [u8; 8],
}

image!(Ledger, 16);

impl Ledger {
    /// 'L'.
    pub const fn kind(&self) -> u8 {
        self.kind
    }
    /// Layout.
    pub const fn layout(&self) -> u8 {
        self.layout
    }
    /// lowest address of the range.
    pub const fn first(&self) -> &[u8; 2] {
        &self.first
    }
    /// number of addresses.
    pub const fn size(&self) -> &[u8; 2] {
        &self.size
    }
    /// free addresses.
    pub const fn left(&self) -> &[u8; 2] {
        &self.left
    }
    /// a bit for each 64 addresses, the lowest in the last byte's lowest bit: whether one is free.
    pub const fn marks(&self) -> &[u8; 8] {
        &self.marks
    }
}

/// A join proxy.
///
/// 26 bytes; changed by calls only.
#[repr(C)]
pub struct Proxy {
    /// 'P'.
    pub(crate) kind: u8,
    /// Layout.
    pub(crate) layout: u8,
    /// Key.
    pub(crate) key: [u8; 16],
    /// numbers issued under this key, 0 to 4294967296.
    pub(crate) issued: [u8; 8],
}

image!(Proxy, 26);

impl Proxy {
    /// 'P'.
    pub const fn kind(&self) -> u8 {
        self.kind
    }
    /// Layout.
    pub const fn layout(&self) -> u8 {
        self.layout
    }
    /// Key.
    pub const fn key(&self) -> &[u8; 16] {
        &self.key
    }
    /// numbers issued under this key, 0 to 4294967296.
    pub const fn issued(&self) -> &[u8; 8] {
        &self.issued
    }
}

/// Where a join response goes.
///
/// 21 bytes, all public.
#[repr(C)]
#[derive(Clone, Copy, PartialEq, Eq)]
pub struct Pledge {
    /// 'G'.
    pub kind: u8,
    /// Layout.
    pub layout: u8,
    /// Interface id.
    pub interface_id: [u8; 8],
    /// Port.
    pub port: [u8; 2],
    /// Token len.
    pub token_len: u8,
    /// Token.
    pub token: [u8; 8],
}

image!(Pledge, 21);

/// A payload that arrives in parts; its bytes are in a lent store of 256.
///
/// 6 bytes; changed by calls only.
#[repr(C)]
pub struct Serial {
    /// 'S'.
    pub(crate) kind: u8,
    /// Layout.
    pub(crate) layout: u8,
    /// bytes that arrived, 0 to 256.
    pub(crate) arrived: [u8; 2],
    /// 1: a part passed 256.
    pub(crate) overrun: u8,
    /// 1: the end was marked.
    pub(crate) ended: u8,
}

image!(Serial, 6);

impl Serial {
    /// 'S'.
    pub const fn kind(&self) -> u8 {
        self.kind
    }
    /// Layout.
    pub const fn layout(&self) -> u8 {
        self.layout
    }
    /// bytes that arrived, 0 to 256.
    pub const fn arrived(&self) -> &[u8; 2] {
        &self.arrived
    }
    /// 1: a part passed 256.
    pub const fn overrun(&self) -> u8 {
        self.overrun
    }
    /// 1: the end was marked.
    pub const fn ended(&self) -> u8 {
        self.ended
    }
}

/// What a replay found.
///
/// 251 bytes, all public.
#[repr(C)]
#[derive(Clone, Copy, PartialEq, Eq)]
pub struct Replayed {
    /// 'T'.
    pub kind: u8,
    /// Layout.
    pub layout: u8,
    /// records by kind, 1 first.
    pub kinds: [[u8; 8]; 6],
    /// refusals by number, 1 first.
    pub refusals: [[u8; 8]; 22],
    /// from pending to active.
    pub switches: [u8; 8],
    /// longest wait from an accepted start to its accepted join answer, ms.
    pub longest: [u8; 8],
    /// 0: the whole trace was walked; 1: it stopped at `place`.
    pub stopped: u8,
    /// offset of that record; else the trace's length.
    pub place: [u8; 8],
}

image!(Replayed, 251);

#[rustfmt::skip]
extern "C" {
    /// The layout number of the images that the library was built with.
    pub fn pothatch_layout() -> u32;
    /// The size of the struct of a kind, for instance 'L'. RANGE: an undefined kind.
    pub fn pothatch_size(kind: u64, size: *mut u32) -> u32;
    /// The refusal's name in ASCII, padded with zeros. RANGE: an undefined number.
    pub fn pothatch_refusal_name(number: u64, name: *mut u8, name_len: u64) -> u32;
    /// What a key's usage means for the radio: whether data frames and acknowledgements are encrypted (1) or only authenticated (0), and
    /// the length of a frame's MIC in bytes (4, 8 or 16). Beacons are never encrypted, whatever the usage. RANGE: a usage over 14.
    pub fn pothatch_key_usage(usage: u64, encrypted: *mut u32, mic_length: *mut u32) -> u32;
    /// Reads a join request. RANGE: an undefined form or reading; then as the papers order (LONG first; LOOSE in a strict reading).
    pub fn pothatch_request_read(form: u64, reading: u64, payload: *const u8, payload_len: u64, out: *mut u8, out_len: u64) -> u32;
    /// Reads a configuration. Refused as pothatch_request_read is.
    pub fn pothatch_configuration_read(form: u64, reading: u64, payload: *const u8, payload_len: u64, out: *mut u8, out_len: u64) -> u32;
    /// Writes a join request: shortest heads, labels ascending. RANGE: an undefined form, not a request, outside its limits or over 256
    /// bytes; OWED; ROOM.
    pub fn pothatch_request_write(form: u64, object: *const u8, object_len: u64, dst: *mut u8, dst_len: u64, length: *mut u64) -> u32;
    /// Writes a configuration in the same way. RANGE, ROOM.
    pub fn pothatch_configuration_write(form: u64, object: *const u8, object_len: u64, dst: *mut u8, dst_len: u64, length: *mut u64) -> u32;
    /// Merges two configurations of the draft: each parameter from the second where it is taken there, else from the first. RANGE: not a
    /// configuration, outside its limits, or read in RFC 9031's form with a known label (its lease is in hours).
    pub fn pothatch_configuration_merge(first: *const u8, first_len: u64, second: *const u8, second_len: u64, out: *mut u8,
        out_len: u64) -> u32;
    /// Makes an idle node. has_network 0: it has no network identifier, and network is not read; then only a border router of the draft can
    /// start. RANGE: an undefined form, role or has_network; with has_network 1 a network over 16 bytes.
    pub fn pothatch_node_make(form: u64, role: u64, has_network: u64, network: *const u8, network_len: u64, node: *mut u8,
        node_len: u64) -> u32;
    /// Starts a join attempt and writes the join request, at most 38 bytes. CLOCK; PHASE: while waiting; RANGE: a first timeout outside
    /// 10,000 to 15,000; OWED, ROOM.
    pub fn pothatch_node_start(node: *mut u8, node_len: u64, time: u64, timeout: u64, dst: *mut u8, dst_len: u64, length: *mut u64) -> u32;
    /// What is due in the join attempt, at most one step a call: a POTHATCH_DUE code. POTHATCH_DUE_SEND: send the bytes that the start
    /// wrote again. CLOCK; PHASE: not waiting.
    pub fn pothatch_node_poll(node: *mut u8, node_len: u64, time: u64, due: *mut u32) -> u32;
    /// Delivers a join answer, while waiting. LONG, CLOCK, PHASE; then as reading any heads in the node's version; OWED: a border router is
    /// left without a network identifier; CLASH: draft (in RFC 9031 the set's report is 2).
    pub fn pothatch_node_answer(node: *mut u8, node_len: u64, time: u64, payload: *const u8, payload_len: u64, reports: *mut u8,
        reports_len: u64) -> u32;
    /// Delivers a parameter update, once joined. Refused as pothatch_node_answer is, without OWED.
    pub fn pothatch_node_update(node: *mut u8, node_len: u64, time: u64, payload: *const u8, payload_len: u64, reports: *mut u8,
        reports_len: u64) -> u32;
    /// Whether the short address holds: POTHATCH_HOLDS or POTHATCH_LAPSED. LAPSED is 2 and so true in an `if`: compare with POTHATCH_HOLDS.
    /// CLOCK.
    pub fn pothatch_node_holds(node: *const u8, node_len: u64, time: u64, holds: *mut u32) -> u32;
    /// The key to send a frame with, and its counter, which rises by one in the node. RANGE: an undefined frame type; SILENT.
    pub fn pothatch_node_send(node: *mut u8, node_len: u64, frame_type: u64, key: *mut u8, key_len: u64) -> u32;
    /// The key to receive a frame with. RANGE: an undefined frame type, an identifier outside 1 to 255; SILENT.
    pub fn pothatch_node_receive(node: *const u8, node_len: u64, frame_type: u64, identifier: u64, key: *mut u8, key_len: u64) -> u32;
    /// The radio verified such a frame; under a pending key the pending set becomes active: POTHATCH_KEPT or POTHATCH_SWITCHED. Refused as
    /// pothatch_node_receive is.
    pub fn pothatch_node_verified(node: *mut u8, node_len: u64, frame_type: u64, identifier: u64, change: *mut u32) -> u32;
    /// Opens a ledger over memory that may hold earlier grants of the same range; for a fresh one fill the memory with 0 first. RANGE: a
    /// size outside 1 to 4,096, a last address over FFFF; ROOM: memory under nine bytes an address.
    pub fn pothatch_ledger_open(first: u64, size: u64, memory: *const u8, memory_len: u64, ledger: *mut u8, ledger_len: u64) -> u32;
    /// Grants the board the lowest free address, or the one that it holds. RANGE, ROOM; FULL.
    pub fn pothatch_ledger_grant(ledger: *mut u8, ledger_len: u64, memory: *mut u8, memory_len: u64, board: *const u8, board_len: u64,
        address: *mut u16) -> u32;
    /// Takes the board's address back. RANGE, ROOM; UNKNOWN.
    pub fn pothatch_ledger_give_back(ledger: *mut u8, ledger_len: u64, memory: *mut u8, memory_len: u64, board: *const u8, board_len: u64,
        address: *mut u16) -> u32;
    /// How many addresses are free. RANGE.
    pub fn pothatch_ledger_free(ledger: *const u8, ledger_len: u64, count: *mut u64) -> u32;
    /// Seals a text and appends the tag of 8 bytes. RANGE: lengths; ROOM.
    pub fn pothatch_seal(key: *const u8, key_len: u64, nonce: *const u8, nonce_len: u64, associated: *const u8, associated_len: u64,
        text: *const u8, text_len: u64, dst: *mut u8, dst_len: u64, length: *mut u64) -> u32;
    /// Opens a sealed text. RANGE: lengths; ROOM; SEAL.
    pub fn pothatch_unseal(key: *const u8, key_len: u64, nonce: *const u8, nonce_len: u64, associated: *const u8, associated_len: u64,
        sealed: *const u8, sealed_len: u64, dst: *mut u8, dst_len: u64, length: *mut u64) -> u32;
    /// Makes a proxy that has issued nothing. RANGE: the key's length.
    pub fn pothatch_proxy_make(key: *const u8, key_len: u64, proxy: *mut u8, proxy_len: u64) -> u32;
    /// Sets a key; numbers begin at 0 again. RANGE: the key's length, or the key in use.
    pub fn pothatch_proxy_set_key(proxy: *mut u8, proxy_len: u64, key: *const u8, key_len: u64) -> u32;
    /// Issues an option body of 31 bytes. RANGE: the identifier's length, a port over 65,535, a token over 8 bytes; SPENT, ROOM.
    pub fn pothatch_proxy_issue(proxy: *mut u8, proxy_len: u64, interface_id: *const u8, interface_id_len: u64, port: u64, token: *const u8,
        token_len: u64, dst: *mut u8, dst_len: u64) -> u32;
    /// Whom a response with this body goes to. TYPE, SEAL, RANGE, STALE.
    pub fn pothatch_proxy_judge(proxy: *const u8, proxy_len: u64, body: *const u8, body_len: u64, pledge: *mut u8, pledge_len: u64) -> u32;
    /// Begins anew, whatever the image holds. The store need not be cleared: its former bytes are never read.
    pub fn pothatch_serial_reset(serial: *mut u8, serial_len: u64) -> u32;
    /// Takes one more part. LONG: over 256 bytes, now or before; nothing of the part is stored, and the overrun is marked in the image.
    /// PHASE: after the end.
    pub fn pothatch_serial_part(serial: *mut u8, serial_len: u64, store: *mut u8, store_len: u64, part: *const u8, part_len: u64) -> u32;
    /// Marks the end and reads what arrived as pothatch_request_read does. RANGE: an undefined form or reading; LONG, PHASE; then as the
    /// reading. The end stays marked if the reading is refused.
    pub fn pothatch_serial_end_request(serial: *mut u8, serial_len: u64, store: *const u8, store_len: u64, form: u64, reading: u64,
        out: *mut u8, out_len: u64) -> u32;
    /// The same for a configuration.
    pub fn pothatch_serial_end_configuration(serial: *mut u8, serial_len: u64, store: *const u8, store_len: u64, form: u64, reading: u64,
        out: *mut u8, out_len: u64) -> u32;
    /// Replays a trace record by record. Returns 0 also if it stopped early: `out` says so. node: all 0 if the trace made none. RANGE: a
    /// struct's length.
    pub fn pothatch_replay(trace: *const u8, trace_len: u64, node: *mut u8, node_len: u64, out: *mut u8, out_len: u64) -> u32;
}
