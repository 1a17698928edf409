//! Gear rows.

use core::fmt;

/// The lamp beside the gear.
#[derive(Clone, Copy, Debug, PartialEq, Eq, Hash)]
#[repr(u32)]
pub enum Lamp {
    /// 0: no light.
    Dark = 0,
    /// 1: allowed in neutral and in the high neutral only.
    Green = 1,
    /// 2: allowed with every gear.
    Amber = 2,
}

/// A gear, 0 (neutral) to 7 (high neutral), and a lamp.
#[derive(Clone, Copy, Debug, PartialEq, Eq, Hash)]
pub struct Row {
    /// 0 is neutral, and 7 the high neutral.
    pub gear: u32,
    /// What burns beside it.
    pub lamp: Lamp,
}

/// A row that was read, and how many bits of its word were repaired.
#[derive(Clone, Copy, Debug, PartialEq, Eq, Hash)]
pub struct Reading {
    /// The row.
    pub row: Row,
    /// The number of places in which the word received and the repaired word differ.
    pub count: u32,
}

impl Reading {
    /// From gear + 8 × lamp + 32 × count, as the library returns it. Its lamps are 0, 1 and 2.
    pub(crate) fn of(value: u32) -> Reading {
        let lamp = [Lamp::Dark, Lamp::Green, Lamp::Amber][(value / 8 % 4) as usize];
        Reading { row: Row { gear: value % 8, lamp }, count: value / 32 }
    }
}

const GEARS: [&str; 8] = ["neutral", "first", "second", "third", "fourth", "fifth", "sixth", "high neutral"];

/// The row whole, gear then lamp: "first, dark".
impl fmt::Display for Row {
    fn fmt(&self, f: &mut fmt::Formatter<'_>) -> fmt::Result {
        match GEARS.get(self.gear as usize) {
            Some(gear) => write!(f, "{gear}, {}", self.lamp),
            None => write!(f, "gear {}, {}", self.gear, self.lamp),
        }
    }
}

impl fmt::Display for Lamp {
    fn fmt(&self, f: &mut fmt::Formatter<'_>) -> fmt::Result {
        f.write_str(match self {
            Lamp::Dark => "dark",
            Lamp::Green => "green",
            Lamp::Amber => "amber",
        })
    }
}

#[cfg(test)]
mod tests {
    extern crate std;
    use super::*;
    use std::string::ToString;

    #[test]
    fn rows_are_shown_whole() {
        assert_eq!(Row { gear: 1, lamp: Lamp::Dark }.to_string(), "first, dark");
        assert_eq!(Row { gear: 0, lamp: Lamp::Green }.to_string(), "neutral, green");
        assert_eq!(Row { gear: 7, lamp: Lamp::Green }.to_string(), "high neutral, green");
        assert_eq!(Row { gear: 9, lamp: Lamp::Amber }.to_string(), "gear 9, amber");
    }

    #[test]
    fn readings_are_taken_apart() {
        let reading = Reading { row: Row { gear: 7, lamp: Lamp::Amber }, count: 256 };
        assert_eq!(Reading::of(7 + 8 * 2 + 32 * 256), reading);
    }
}
