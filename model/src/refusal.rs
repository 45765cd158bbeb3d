//! Why a call is turned away, with the numbers of the documents.

#[derive(Clone, Copy, Debug, PartialEq, Eq)]
pub enum Refusal {
    PartyCount = 1,
    NoSuchParty = 2,
    GuardCount = 3,
    WrongPartner = 4,
    NotANumber = 5,
    NoneEnabled = 6,
    OutOfForm = 7,
    MalformedLine = 8,
    NotIdle = 11,
    TicketsUsedUp = 12,
    NotMet = 13,
    NothingOffered = 14,
    Nap = 15,
}

impl Refusal {
    pub fn number(self) -> u8 {
        self as u8
    }
}
