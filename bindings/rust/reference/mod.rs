//! A second implementation of the documents' rules, to compare the library with: it shares no code and no tables with it. Its author knew
//! the library's source, and what the documents leave open (the bytes of a parameter that is not taken) follows it; so a misreading may be
//! common to both. The recorded answers of python/streams.py, which others made, are the check on that. `calls` has a function for each
//! call of pothatch.h, over bytes as C lends them.
pub mod calls;
pub mod image;
pub mod item;
pub mod trace;
pub mod node;
pub mod object;
pub mod reading;
pub mod writing;

/// A refusal's number.
pub type Refused = u32;
pub const CUT: Refused = 1;
pub const FORM: Refused = 2;
pub const DEEP: Refused = 3;
pub const EXTRA: Refused = 4;
pub const TYPE: Refused = 5;
pub const TWICE: Refused = 6;
pub const KEYS: Refused = 7;
pub const ROLE: Refused = 8;
pub const OWED: Refused = 9;
pub const CLASH: Refused = 10;
pub const CLOCK: Refused = 11;
pub const ROOM: Refused = 12;
pub const RANGE: Refused = 13;
pub const SILENT: Refused = 14;
pub const LONG: Refused = 15;
pub const PHASE: Refused = 16;
pub const LOOSE: Refused = 19;
