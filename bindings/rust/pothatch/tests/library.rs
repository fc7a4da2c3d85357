//! The crate against the library: refusals by number and name, states that go through their images, and each group of calls once.
use pothatch::*;

const NETWORK: [u8; 2] = [0xca, 0xfe];

/// A join answer with one key and an address for an hour.
fn answer() -> Vec<u8> {
    let mut payload = vec![0xa2, 0x02, 0x82, 0x01, 0x50];
    payload.extend([7; 16]);
    payload.extend([0x03, 0x82, 0x42, 0x12, 0x34, 0x19, 0x0e, 0x10]);
    payload
}

fn joined() -> Node {
    let mut node = Node::new(Version::Draft, Role::Node, Some(&NETWORK)).unwrap();
    let mut request = [0; REQUEST_MOST];
    node.start(0, 10_000, &mut request).unwrap();
    node.answer(1, &answer()).unwrap();
    node
}

#[test]
fn refusals_have_the_library_s_names() {
    for number in 1..=22 {
        let why = Refusal::from_number(number).unwrap();
        let name = refusal_name(number).unwrap();
        assert_eq!(why.number(), number);
        assert_eq!(why.name().as_bytes(), name.split(|b| *b == 0).next().unwrap());
    }
    assert_eq!(Refusal::from_number(0), None);
    assert_eq!(refusal_name(0), Err(Refusal::Range));
    assert_eq!(refusal_name(23), Err(Refusal::Range));
    assert_eq!(Refusal::from_number(23), Some(Refusal::Other(23)));
    let error: Box<dyn std::error::Error> = Box::new(Refusal::Keys);
    assert_eq!(error.to_string(), "7 KEYS: a key set outside its limits");
}

#[test]
fn layout_and_sizes_are_the_library_s() {
    assert_eq!(layout(), sys::LAYOUT);
    assert_eq!(size(b'N'), Ok(std::mem::size_of::<Node>()));
    assert_eq!(size(b'C'), Ok(std::mem::size_of::<Configuration>()));
    assert_eq!(size(b'X'), Err(Refusal::Range));
}

#[test]
fn usages_are_the_table_s() {
    assert_eq!(key_usage(0), Ok(KeyUsage { encrypted: true, mic_length: 4 }));
    assert_eq!(key_usage(7), Ok(KeyUsage { encrypted: false, mic_length: 8 }));
    assert_eq!(key_usage(14), Ok(KeyUsage { encrypted: true, mic_length: 16 }));
    assert_eq!(key_usage(15), Err(Refusal::Range));
}

#[test]
fn a_node_goes_on_from_its_image() {
    let mut node = joined();
    assert_eq!(node.verified(FrameType::Data, 1), Ok(true));
    assert_eq!(number(&node.send(FrameType::Data).unwrap().counter), 0);
    let mut again = Node::from_image(node.image());
    drop(node);
    assert_eq!(number(&again.send(FrameType::Data).unwrap().counter), 1);
    assert_eq!(again.receive(FrameType::Data, 1).unwrap().key.value, [7; 16]);
    assert_eq!(again.holds(3_600_000), Ok(true));
    assert_eq!(again.holds(3_600_001), Ok(false));
    assert_eq!(again.update(2, &[0xa0]).map(|r| r.keys), Ok(sys::ABSENT));
    assert_eq!(again.poll(2), Err(Refusal::Phase));
    assert_eq!(again.receive(FrameType::Data, 0).err(), Some(Refusal::Range));
    assert_eq!(Node::from_image(&[0; 878]).poll(0), Err(Refusal::Range));
    assert_eq!(again.attempt().phase, sys::JOINED);
}

#[test]
fn reserved_counters_are_not_used_again() {
    let mut node = joined();
    assert_eq!(node.reserve(FrameType::Data, 1), Err(Refusal::Silent));
    node.verified(FrameType::Data, 1).unwrap();
    let stored = node.reserve(FrameType::Data, 3).unwrap();
    let sent: Vec<u64> = (0..3).map(|_| number(&node.send(FrameType::Data).unwrap().counter)).collect();
    assert_eq!(sent, [0, 1, 2]);
    assert_eq!(number(&Node::from_image(&stored).send(FrameType::Data).unwrap().counter), 3);
    assert_eq!(node.reserve(FrameType::Data, RESERVE_MOST + 1), Err(Refusal::Range));
    assert_eq!(node.reserve(FrameType::Data, 0), Ok(*node.image()));
    assert_eq!(joined().reserve(FrameType::Data, 0), Ok(*joined().image()));
    assert_eq!(Node::from_image(&[0; 878]).reserve(FrameType::Data, 0), Err(Refusal::Range));
}

#[test]
fn a_key_value_that_comes_back_counts_from_0() {
    let mut node = joined();
    node.verified(FrameType::Data, 1).unwrap();
    for (time, identifier) in [(2, 2), (3, 1)] {
        assert_eq!(number(&node.send(FrameType::Data).unwrap().counter), 0);
        let mut update = vec![0xa1, 0x02, 0x82, identifier, 0x50];
        update.extend([7; 16]);
        node.update(time, &update).unwrap();
        assert_eq!(node.verified(FrameType::Data, identifier), Ok(true));
    }
    assert_eq!(number(&node.send(FrameType::Data).unwrap().counter), 0);
}

#[test]
fn a_configuration_is_filled_in() {
    let (mut c, mut dst) = (Configuration::new(), [0; PAYLOAD_MOST]);
    c.keys.count = 1;
    c.keys.keys[0].identifier = 1;
    c.keys.keys[0].value = [7; 16];
    put(&mut c.address.bytes, 0x1234).unwrap();
    put(&mut c.address.lease, 3600).unwrap();
    assert_eq!(c.write(Version::Draft, &mut dst), Ok(1));
    (c.keys_report, c.address.report, c.address.leased) = (TAKEN, TAKEN, 1);
    let n = c.write(Version::Draft, &mut dst).unwrap();
    assert_eq!(&dst[..n], &answer()[..]);
    assert_eq!(put(&mut c.address.bytes, 65_536), Err(Refusal::Range));
    assert_eq!(c.address.bytes, [0x12, 0x34]);
    assert_eq!((put(&mut c.address.lease, u64::MAX), number(&c.address.lease)), (Ok(()), u64::MAX));
    assert_eq!((ABSENT, DISCARDED), (0, 2));
}

#[test]
fn objects_are_read_written_and_merged() {
    let read = Configuration::read(Version::Draft, Reading::Strict, &answer()).unwrap();
    let mut dst = [0; PAYLOAD_MOST];
    let n = read.write(Version::Draft, &mut dst).unwrap();
    assert_eq!(&dst[..n], &answer()[..]);
    assert_eq!(Configuration::new().merge(&read).unwrap(), read);
    assert_eq!(read.write(Version::Draft, &mut dst[..n - 1]), Err(Refusal::Room));
    let mut request = Request::new();
    assert_eq!(request.write(Version::Draft, &mut dst), Err(Refusal::Owed));
    request.role = sys::BORDER;
    let n = request.write(Version::Draft, &mut dst).unwrap();
    assert_eq!(Request::read(Version::Draft, Reading::Any, &dst[..n]).unwrap().role, sys::BORDER);
    assert_eq!(Request::read(Version::Draft, Reading::Any, &[]), Err(Refusal::Cut));
}

#[test]
fn a_ledger_grants_and_takes_back() {
    let (mut memory, board) = ([0; 3 * PLACE], [1, 2, 3, 4, 5, 6, 7, 8]);
    let mut ledger = Ledger::open(0x1000, 3, &memory).unwrap();
    assert_eq!(ledger.grant(&mut memory, &board), Ok(0x1000));
    assert_eq!(ledger.free(), Ok(2));
    assert_eq!(ledger.give_back(&mut memory, &board), Ok(0x1000));
    assert_eq!(ledger.give_back(&mut memory, &board), Err(Refusal::Unknown));
    assert_eq!(Ledger::open(0x11000, 3, &memory).err(), Some(Refusal::Range));
    assert_eq!(Ledger::open(0x1000, 65_539, &memory).err(), Some(Refusal::Range));
    assert_eq!(Ledger::open(0x1000, 4, &memory).err(), Some(Refusal::Room));
}

#[test]
fn messages_are_sealed_and_opened() {
    let (key, nonce, mut sealed, mut text) = ([1; 16], [2; 13], [0; 5 + TAG], [0; 5]);
    assert_eq!(seal(&key, &nonce, b"data", b"hello", &mut sealed), Ok(13));
    assert_eq!(unseal(&key, &nonce, b"data", &sealed, &mut text), Ok(5));
    assert_eq!(&text, b"hello");
    assert_eq!(unseal(&key, &nonce, b"date", &sealed, &mut text), Err(Refusal::Seal));
}

#[test]
fn a_proxy_knows_its_bodies() {
    let mut proxy = Proxy::new(&[1; 16]).unwrap();
    let body = proxy.issue(&[3; 8], 5683, &[0xca]).unwrap();
    let pledge = proxy.judge(&body).unwrap();
    assert_eq!((pledge.interface_id, number(&pledge.port), pledge.token_len, pledge.token[0]), ([3; 8], 5683, 1, 0xca));
    assert_eq!(proxy.judge(&body[1..]).err(), Some(Refusal::Type));
    assert_eq!(proxy.set_key(&[1; 16]), Err(Refusal::Range));
    assert_eq!(proxy.set_key(&[2; 16]), Ok(()));
    assert_eq!(proxy.judge(&body).err(), Some(Refusal::Seal));
}

#[test]
fn parts_make_a_payload_and_a_trace_a_node() {
    let (mut serial, mut store) = (Serial::new(), [0; PAYLOAD_MOST]);
    serial.part(&mut store, &answer()[..7]).unwrap();
    serial.part(&mut store, &answer()[7..]).unwrap();
    let read = serial.end_configuration(&store, Version::Draft, Reading::Any).unwrap();
    assert_eq!(read, Configuration::read(Version::Draft, Reading::Any, &answer()).unwrap());
    assert_eq!(serial.end_request(&store, Version::Draft, Reading::Any), Err(Refusal::Phase));
    serial.reset();
    assert_eq!(serial.end_request(&store, Version::Draft, Reading::Any), Err(Refusal::Cut));
    let (node, found) = replay(&[9]).unwrap();
    assert!(node.is_none() && found.stopped == 1);
}
