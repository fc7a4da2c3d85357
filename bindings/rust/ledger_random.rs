//! Random runs of calls: the library's ledger against a small one that is written here and shares nothing with it. Prints `N passed, M failed`.
use pothatch::{Ledger, Refusal};

/// Which board holds which address, by place.
struct Plain {
    first: u16,
    holders: Vec<Option<[u8; 8]>>,
}

impl Plain {
    fn grant(&mut self, board: &[u8; 8]) -> Result<u16, Refusal> {
        let held = self.holders.iter().position(|h| *h == Some(*board));
        let place = held.or_else(|| self.holders.iter().position(|h| h.is_none())).ok_or(Refusal::Full)?;
        self.holders[place] = Some(*board);
        Ok(self.first + place as u16)
    }

    fn give_back(&mut self, board: &[u8; 8]) -> Result<u16, Refusal> {
        let place = self.holders.iter().position(|h| *h == Some(*board)).ok_or(Refusal::Unknown)?;
        self.holders[place] = None;
        Ok(self.first + place as u16)
    }

    fn free(&self) -> u64 {
        self.holders.iter().filter(|h| h.is_none()).count() as u64
    }
}

fn next(seed: &mut u64) -> u64 {
    *seed ^= *seed << 13;
    *seed ^= *seed >> 7;
    *seed ^= *seed << 17;
    *seed
}

/// One run of many calls: whether every answer agrees, a refused call changes nothing, and the bytes around the memory stay.
fn run(seed: &mut u64) -> bool {
    let size = 1 + (next(seed) % 200) as u16;
    let first = (next(seed) % 60000) as u16;
    let room = 9 * size as usize;
    let mut guarded = vec![0xA5u8; room + 32];
    guarded[16..16 + room].fill(0);
    let mut plain = Plain { first, holders: vec![None; size as usize] };
    let Ok(mut ledger) = Ledger::open(u64::from(first), u64::from(size), &guarded[16..16 + room]) else { return false };
    for _ in 0..600 {
        let mut board = [0u8; 8];
        board[7] = (next(seed) % (size as u64 + 20)) as u8;
        let before = (*ledger.image(), guarded.clone());
        let memory = &mut guarded[16..16 + room];
        let (got, want) = if next(seed) % 5 < 3 {
            (ledger.grant(memory, &board), plain.grant(&board))
        } else {
            (ledger.give_back(memory, &board), plain.give_back(&board))
        };
        if got != want || ledger.free() != Ok(plain.free()) {
            return false;
        }
        if got.is_err() && (*ledger.image() != before.0 || guarded != before.1) {
            return false;
        }
        if guarded[..16].iter().chain(&guarded[16 + room..]).any(|b| *b != 0xA5) {
            return false;
        }
    }
    // the same memory, opened again, has the same count
    Ledger::open(u64::from(first), u64::from(size), &guarded[16..16 + room]).map(|l| l.free()) == Ok(Ok(plain.free()))
}

fn main() {
    let mut seed = 0x9E37_79B9_7F4A_7C15u64;
    let passed = (0..200).filter(|_| run(&mut seed)).count();
    println!("{} passed, {} failed", passed, 200 - passed);
    std::process::exit(if passed == 200 { 0 } else { 1 });
}
