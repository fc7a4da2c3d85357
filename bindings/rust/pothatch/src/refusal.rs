//! Refusals. Made by bindings/generate.py.

/// Why a call was refused: the papers' numbers.
#[derive(Debug, Clone, Copy, PartialEq, Eq, Hash)]
#[non_exhaustive]
pub enum Refusal {
    /// 1: the payload ends inside a data item.
    Cut,
    /// 2: the payload has a CBOR head that is not supported.
    Form,
    /// 3: the payload nests over eight levels.
    Deep,
    /// 4: bytes follow the payload's data item.
    Extra,
    /// 5: not a map, a label that is not an integer, or a value of another type.
    Type,
    /// 6: a parameter occurs twice.
    Twice,
    /// 7: a key set outside its limits.
    Keys,
    /// 8: an undefined role.
    Role,
    /// 9: a network identifier is due and missing.
    Owed,
    /// 10: a new key set shares identifiers with the active one.
    Clash,
    /// 11: a time before the last one.
    Clock,
    /// 12: a destination or memory too short.
    Room,
    /// 13: an argument outside its limits.
    Range,
    /// 14: no key for the frame.
    Silent,
    /// 15: a payload over 256 bytes.
    Long,
    /// 16: not in this phase.
    Phase,
    /// 17: no free address.
    Full,
    /// 18: the board holds no address.
    Unknown,
    /// 19: a CBOR head that is not the shortest.
    Loose,
    /// 20: the tag is wrong.
    Seal,
    /// 21: all sequence numbers of the key are used.
    Spent,
    /// 22: the option body is too old or was never issued.
    Stale,
    /// A number that this version of the crate does not know.
    Other(u32),
}

impl Refusal {
    /// The refusal that has this number; `None` for 0, which is no refusal.
    pub const fn from_number(number: u32) -> Option<Refusal> {
        Some(match number {
            0 => return None,
            1 => Refusal::Cut,
            2 => Refusal::Form,
            3 => Refusal::Deep,
            4 => Refusal::Extra,
            5 => Refusal::Type,
            6 => Refusal::Twice,
            7 => Refusal::Keys,
            8 => Refusal::Role,
            9 => Refusal::Owed,
            10 => Refusal::Clash,
            11 => Refusal::Clock,
            12 => Refusal::Room,
            13 => Refusal::Range,
            14 => Refusal::Silent,
            15 => Refusal::Long,
            16 => Refusal::Phase,
            17 => Refusal::Full,
            18 => Refusal::Unknown,
            19 => Refusal::Loose,
            20 => Refusal::Seal,
            21 => Refusal::Spent,
            22 => Refusal::Stale,
            other => Refusal::Other(other),
        })
    }

    /// The number in the papers, which C returns.
    pub const fn number(self) -> u32 {
        match self {
            Refusal::Cut => 1,
            Refusal::Form => 2,
            Refusal::Deep => 3,
            Refusal::Extra => 4,
            Refusal::Type => 5,
            Refusal::Twice => 6,
            Refusal::Keys => 7,
            Refusal::Role => 8,
            Refusal::Owed => 9,
            Refusal::Clash => 10,
            Refusal::Clock => 11,
            Refusal::Room => 12,
            Refusal::Range => 13,
            Refusal::Silent => 14,
            Refusal::Long => 15,
            Refusal::Phase => 16,
            Refusal::Full => 17,
            Refusal::Unknown => 18,
            Refusal::Loose => 19,
            Refusal::Seal => 20,
            Refusal::Spent => 21,
            Refusal::Stale => 22,
            Refusal::Other(number) => number,
        }
    }

    /// The name in the papers.
    pub const fn name(self) -> &'static str {
        match self {
            Refusal::Cut => "CUT",
            Refusal::Form => "FORM",
            Refusal::Deep => "DEEP",
            Refusal::Extra => "EXTRA",
            Refusal::Type => "TYPE",
            Refusal::Twice => "TWICE",
            Refusal::Keys => "KEYS",
            Refusal::Role => "ROLE",
            Refusal::Owed => "OWED",
            Refusal::Clash => "CLASH",
            Refusal::Clock => "CLOCK",
            Refusal::Room => "ROOM",
            Refusal::Range => "RANGE",
            Refusal::Silent => "SILENT",
            Refusal::Long => "LONG",
            Refusal::Phase => "PHASE",
            Refusal::Full => "FULL",
            Refusal::Unknown => "UNKNOWN",
            Refusal::Loose => "LOOSE",
            Refusal::Seal => "SEAL",
            Refusal::Spent => "SPENT",
            Refusal::Stale => "STALE",
            Refusal::Other(_) => "OTHER",
        }
    }

    /// The meaning in a few words.
    pub const fn meaning(self) -> &'static str {
        match self {
            Refusal::Cut => "the payload ends inside a data item",
            Refusal::Form => "the payload has a CBOR head that is not supported",
            Refusal::Deep => "the payload nests over eight levels",
            Refusal::Extra => "bytes follow the payload's data item",
            Refusal::Type => "not a map, a label that is not an integer, or a value of another type",
            Refusal::Twice => "a parameter occurs twice",
            Refusal::Keys => "a key set outside its limits",
            Refusal::Role => "an undefined role",
            Refusal::Owed => "a network identifier is due and missing",
            Refusal::Clash => "a new key set shares identifiers with the active one",
            Refusal::Clock => "a time before the last one",
            Refusal::Room => "a destination or memory too short",
            Refusal::Range => "an argument outside its limits",
            Refusal::Silent => "no key for the frame",
            Refusal::Long => "a payload over 256 bytes",
            Refusal::Phase => "not in this phase",
            Refusal::Full => "no free address",
            Refusal::Unknown => "the board holds no address",
            Refusal::Loose => "a CBOR head that is not the shortest",
            Refusal::Seal => "the tag is wrong",
            Refusal::Spent => "all sequence numbers of the key are used",
            Refusal::Stale => "the option body is too old or was never issued",
            Refusal::Other(_) => "a refusal that this version of the crate does not know",
        }
    }
}
