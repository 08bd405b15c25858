//! What the source issues and terminals take: a layout, in runs with editions of an edition. The
//! higher edition wins.

use std::fmt;

#[derive(Clone, Copy, PartialEq, Eq, PartialOrd, Ord)]
pub struct Notice {
    /// None in a run without editions, whose notice counts as edition 1.
    pub edition: Option<u16>,
    pub layout: u16,
}

/// A later notice of the source, and the round in which it is issued.
#[derive(Clone, Copy)]
pub struct Later {
    pub round: u8,
    pub notice: Notice,
}

impl Notice {
    pub fn plain(layout: u16) -> Notice {
        Notice {
            edition: None,
            layout,
        }
    }

    /// Two bytes are a layout, four an edition and a layout.
    pub fn of(bytes: &[u8]) -> Option<Notice> {
        match *bytes {
            [high, low] => Some(Notice::plain(u16::from_be_bytes([high, low]))),
            [first, second, high, low] => Some(Notice {
                edition: Some(u16::from_be_bytes([first, second])),
                layout: u16::from_be_bytes([high, low]),
            }),
            _ => None,
        }
    }

    /// As it stands in a frame.
    pub fn digits(self) -> String {
        let edition = self.edition.map(|edition| format!("{edition:04x}"));
        format!("{}{:04x}", edition.unwrap_or_default(), self.layout)
    }

    /// For people: "value 0" as the runs without editions call it.
    pub fn layout_named(self) -> String {
        let name = match self.edition {
            Some(_) => "layout",
            None => "value",
        };
        format!("{name} {}", self.layout)
    }
}

/// As the text form has it: `8`, or `8 edition 2`.
impl fmt::Display for Notice {
    fn fmt(&self, out: &mut fmt::Formatter) -> fmt::Result {
        match self.edition {
            Some(edition) => write!(out, "{} edition {edition}", self.layout),
            None => write!(out, "{}", self.layout),
        }
    }
}
