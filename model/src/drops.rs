//! The engine's drop numbers, in the order tried (document 01, "Drop numbers").

#[derive(Clone, Copy, Debug, PartialEq, Eq, PartialOrd, Ord)]
pub enum Drop {
    Room = 1,
    State = 2,
    Sheet = 3,
    Iface = 4,
    Size = 5,
    Type = 6,
    Header = 7,
    Hops = 8,
    Group = 9,
    Source = 10,
    Pair = 11,
    Client = 12,
    Blocks = 13,
    Dest = 14,
    Near = 15,
    Count = 16,
    Seen = 17,
    LastHop = 18,
}

impl Drop {
    pub fn number(self) -> u32 {
        self as u32
    }
}
