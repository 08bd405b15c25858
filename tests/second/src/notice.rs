//! Notices: an edition and a layout.

/// One notice. Editions are compared first, and a notice with a zero half says nothing.
#[derive(Clone, Copy, Debug, Default, PartialEq, Eq, PartialOrd, Ord)]
pub struct Notice {
    pub edition: u16,
    pub layout: u16,
}

/// What a layout of the old frames counts as.
pub const OLD_EDITION: u16 = 1;

pub const fn notice(edition: u16, layout: u16) -> Notice {
    Notice { edition, layout }
}

impl Notice {
    /// The notice that a number stands for in calls and lists.
    pub fn of(number: u32) -> Notice {
        notice((number / 65_536) as u16, (number % 65_536) as u16)
    }

    pub const fn number(self) -> u32 {
        self.edition as u32 * 65_536 + self.layout as u32
    }

    pub fn is_silence(self) -> bool {
        self.edition == 0 || self.layout == 0
    }

    /// Edition and layout as frames have them, the high byte of each first.
    pub fn frame_bytes(self) -> [u8; 4] {
        self.number().to_be_bytes()
    }
}

/// Which frames a run file has: without editions, or with them.
#[derive(Clone, Copy, Debug, PartialEq, Eq, PartialOrd, Ord)]
pub enum Form {
    Old,
    New,
}
