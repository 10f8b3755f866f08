use std::error::Error;
use std::fmt;

/// Why a function did nothing. It prints its number, its name and what to do.
#[derive(Clone, Copy, Debug, PartialEq, Eq, Hash, PartialOrd, Ord)]
#[repr(u8)]
pub enum Refusal {
    /// A count or number exceeds its limit.
    Limit = 1,
    /// The source holds fewer entries than needed.
    Short = 2,
    /// The target or the trellis holds fewer entries than needed.
    Room = 3,
    /// A used entry of a bits-only input exceeds 1.
    Bit = 4,
    /// A whole number above 1 divides both the interleaver's k and a.
    Shuffle = 5,
    /// Reed-Muller data of more than 14 bits, or a word of more than 30.
    Word = 6,
    /// A country code over 1,023, a network code over 16,383 or a colour over 63.
    Field = 7,
    /// A control kind that is not 1 to 4, or a puncturing mode that is not 0 to 6.
    Kind = 8,
    // 9 is retired and may never be given to anything else: a new refusal takes the next number from 10 on.
}

impl Refusal {
    /// The refusal of a number from 1 to 8. No other number is one: 9 is retired.
    pub const fn from_number(number: u8) -> Option<Refusal> {
        Some(match number {
            1 => Refusal::Limit,
            2 => Refusal::Short,
            3 => Refusal::Room,
            4 => Refusal::Bit,
            5 => Refusal::Shuffle,
            6 => Refusal::Word,
            7 => Refusal::Field,
            8 => Refusal::Kind,
            _ => return None,
        })
    }

    /// Its number, 1 to 8.
    pub const fn number(self) -> u8 {
        self as u8
    }

    /// Its name, in capitals.
    pub const fn name(self) -> &'static str {
        match self {
            Refusal::Limit => "LIMIT",
            Refusal::Short => "SHORT",
            Refusal::Room => "ROOM",
            Refusal::Bit => "BIT",
            Refusal::Shuffle => "SHUFFLE",
            Refusal::Word => "WORD",
            Refusal::Field => "FIELD",
            Refusal::Kind => "KIND",
        }
    }

    /// What to do about it, in a sentence.
    pub const fn advice(self) -> &'static str {
        match self {
            Refusal::Limit => "ask for less: 864 steps for a decoder, 4,096 entries elsewhere, 65,535 for the interleaver's a",
            Refusal::Short => "give a source with at least as many entries as the count needs",
            Refusal::Room => "give a longer target, and a decoder one trellis entry for each step",
            Refusal::Bit => "give only 0 and 1 here; only what was received may be erased",
            Refusal::Shuffle => "choose an a that has no divisor above 1 in common with k",
            Refusal::Word => "give data below 16,384, or a word below 2^30",
            Refusal::Field => "give mcc up to 1,023, mnc up to 16,383 and colour up to 63",
            Refusal::Kind => "give a control kind from 1 to 4, or a puncturing mode from 0 to 6",
        }
    }
}

impl fmt::Display for Refusal {
    fn fmt(&self, f: &mut fmt::Formatter<'_>) -> fmt::Result {
        write!(f, "refusal {} {}: {}", self.number(), self.name(), self.advice())
    }
}

impl Error for Refusal {}
