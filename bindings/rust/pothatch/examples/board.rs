//! A board from its join request to the switch to new keys: the example c/board.c in Rust, which writes the same lines.
use pothatch::{number, Due, FrameKey, FrameType, Node, Refusal, Reports, Role, Version};

fn hex(bytes: &[u8]) -> String {
    format!("h'{}'", bytes.iter().map(|b| format!("{:02x}", b)).collect::<String>())
}

/// Writes an answer, or a refusal by number and name.
fn told<T>(answer: Result<T, Refusal>, words: impl FnOnce(T) -> String) {
    match answer {
        Ok(value) => println!("{}", words(value)),
        Err(why) => println!("refused {} {}", why.number(), why.name()),
    }
}

fn due(due: Due) -> String {
    match due {
        Due::NotYet => "not yet",
        Due::Send => "send again",
        Due::GaveUp => "gave up",
    }
    .to_string()
}

fn reports(r: Reports) -> String {
    let word = |code: u8| ["absent", "taken", "discarded"][code as usize];
    let front = format!("accepted keys={} address={} jrc={}", word(r.keys), word(r.address), word(r.jrc));
    format!("{} network={} prefix={} passed={}", front, word(r.network), word(r.prefix), number(&r.passed))
}

fn key(k: FrameKey) -> String {
    format!("key {}/{}/{} counter={}", k.key.identifier, k.key.usage, hex(&k.key.value), number(&k.counter))
}

fn main() {
    let answer = [
        0xa2, 0x02, 0x82, 0x01, 0x50, 0xe6, 0xbf, 0x42, 0x87, 0xc2, 0xd7, 0x61, 0x8d, 0x6a, 0x96, 0x87, 0x44, 0x5f, 0xfd, 0x33, 0xe6, 0x03,
        0x82, 0x42, 0x12, 0x34, 0x19, 0x0e, 0x10,
    ];
    let mut update = vec![0xa1, 0x02, 0x82, 0x02, 0x50];
    update.extend(0..16u8);
    let yes = |yes: bool| if yes { "yes" } else { "no" }.to_string();
    let switched = |switched: bool| if switched { "switched" } else { "kept" }.to_string();
    let mut node = Node::new(Version::Draft, Role::Node, Some(&[0xca, 0xfe])).expect("a node");
    println!("made");
    told(node.poll(0), due);
    let mut request = [0; 38];
    let sent = node.start(0, 10000, &mut request);
    told(sent, |n| format!("sent {}", hex(&request[..n])));
    told(node.poll(9999), due);
    told(node.poll(10000), due);
    told(node.answer(12000, &answer[..answer.len() - 1]), reports);
    told(node.answer(12000, &answer), reports);
    told(node.holds(12000), yes);
    told(node.send(FrameType::Data), key);
    told(node.verified(FrameType::Data, 1), switched);
    told(node.send(FrameType::Data), key);
    told(node.update(60000, &update), reports);
    told(node.send(FrameType::Data), key);
    told(node.verified(FrameType::Data, 2), switched);
    told(node.send(FrameType::Data), key);
    told(node.verified(FrameType::Data, 1), switched);
    told(node.holds(3611999), yes);
    told(node.holds(3612000), yes);
}
