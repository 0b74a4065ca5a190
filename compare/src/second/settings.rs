//! What a command carries and an aircraft holds: seven flags and the sections 2 to 9, with their limits.

/// "Two latitudes (00-90, N or S), two longitudes (000-180, E or W)": one of them.
#[derive(Clone, Copy, Debug, Default, PartialEq, Eq)]
pub struct Edge {
    pub degrees: u8,
    pub letter: u8,
}

#[derive(Clone, Copy, Debug, Default, PartialEq, Eq)]
pub struct Region {
    pub north: Edge,
    pub south: Edge,
    pub west: Edge,
    pub east: Edge,
}

/// A counted list. Entries that are not used are zero.
#[derive(Clone, Copy, Debug, PartialEq, Eq)]
pub struct List<T, const N: usize> {
    pub count: u8,
    pub entries: [T; N],
}

pub type Boxes = List<Region, 16>;
pub type Airfields = List<[u8; 4], 20>;

impl<T: Default + Copy, const N: usize> Default for List<T, N> {
    fn default() -> Self {
        List { count: 0, entries: [T::default(); N] }
    }
}

impl<T, const N: usize> List<T, N> {
    /// The entries in use, of a list whose count is in its range.
    #[inline(always)]
    pub fn used(&self) -> &[T] {
        &self.entries[..usize::from(self.count)]
    }
}

/// The sections; the short ones are rows of numbers.
#[derive(Clone, Copy, Debug, Default, PartialEq, Eq)]
pub struct Sections {
    /// 2: reporting, inhibiting.
    pub boxes: [Boxes; 2],
    /// 3: ascent selected, descent selected, ascent inhibited, descent inhibited; routine.
    pub airfields: [Airfields; 4],
    pub airports: [u16; 1],
    pub enroute: [u16; 2],
    pub ascent: [u16; 8],
    pub routine6: [u16; 1],
    pub descent: [u16; 5],
    pub routine8: [u16; 1],
    pub hours: [u16; 2],
}

/// A flag of a command that changes nothing.
pub const NO_CHANGE: u8 = 9;

/// AMDAR, inhibit hours, regions, airports, ascent, enroute, descent.
pub type Flags = [u8; 7];

#[derive(Clone, Copy, Debug, Default, PartialEq, Eq)]
pub struct Command {
    pub flags: Flags,
    pub downlink: u8,
    /// E2 to E9.
    pub named: [u8; 8],
    /// 0; the header's record has it behind the indicators.
    pub spare: u8,
    pub sections: Sections,
}

#[derive(Clone, Copy, Debug, Default, PartialEq, Eq)]
pub struct Configuration {
    pub flags: Flags,
    pub sections: Sections,
}

/// A number of a short section: its bytes, its range, and the code of a number outside it.
pub struct Number {
    pub bytes: usize,
    pub low: u16,
    pub high: u16,
    pub code: u8,
}

const fn number(bytes: usize, low: u16, high: u16) -> Number {
    Number { bytes, low, high, code: super::RANGE }
}

/// "A mode, list or timer holding another byte is 4."
const fn mark(low: u16, high: u16) -> Number {
    Number { bytes: 1, low, high, code: super::BYTE }
}

pub const ROUTINE: [Number; 1] = [number(1, 0, 1)];
/// Interval, maximum wind.
pub const ENROUTE: [Number; 2] = [number(2, 1, 60), number(1, 0, 1)];
/// Mode, series 1 interval, duration, series 2 interval, total, top, list, timer.
pub const ASCENT: [Number; 8] = [
    mark(0, 1),
    number(2, 3, 20),
    number(3, 30, 600),
    number(2, 3, 60),
    number(3, 51, 111),
    number(3, 150, 350),
    mark(1, 2),
    mark(0, 1),
];
/// Mode, interval, top, list, timer: source document 003, Table 4.3.10.7-1.
pub const DESCENT: [Number; 5] = [mark(0, 1), number(3, 10, 300), number(3, 150, 350), mark(1, 2), mark(0, 1)];
/// Start and end hour.
pub const HOURS: [Number; 2] = [number(2, 0, 23), number(2, 0, 23)];

/// How an edge is spelt: the most degrees, the letter of zero and above, the letter below zero.
pub struct Circle {
    pub most: u8,
    pub above: u8,
    pub below: u8,
}

pub const LATITUDE: Circle = Circle { most: 90, above: b'N', below: b'S' };
pub const LONGITUDE: Circle = Circle { most: 180, above: b'E', below: b'W' };

impl Circle {
    #[inline(always)]
    pub fn has(&self, letter: u8) -> bool {
        (letter == self.above) | (letter == self.below)
    }

    /// Degrees from zero, north and east positive.
    #[inline(always)]
    pub fn degrees(&self, edge: Edge) -> i32 {
        let degrees = i32::from(edge.degrees);
        if edge.letter == self.below {
            -degrees
        } else {
            degrees
        }
    }
}

/// The bytes in front of the sections, and where the indicator of section k stands behind `INDICATOR`.
pub const HEAD: usize = 22;
pub const INDICATOR: usize = 11;
/// "Spare not 0 (at byte 21)."
pub const SPARE: usize = 21;
/// "Each section number has its own length": the longest of each, and of a command.
const BOXES_MOST: usize = 2 * (2 + 16 * 14) + 1;
const AIRFIELDS_MOST: usize = 4 * (2 + 20 * 4) + 1 + 1;
const SHORT: usize =
    short(&ENROUTE) + short(&ASCENT) + short(&ROUTINE) + short(&DESCENT) + short(&ROUTINE) + short(&HOURS);
pub const MOST: usize = HEAD + BOXES_MOST + AIRFIELDS_MOST + SHORT;
const _: () = assert!(short(&DESCENT) == 10 && MOST == 845);

/// The bytes of a row of numbers and its delimiter.
pub const fn short(row: &[Number]) -> usize {
    let (mut bytes, mut index) = (1, 0);
    while index < row.len() {
        bytes += row[index].bytes;
        index += 1;
    }
    bytes
}
