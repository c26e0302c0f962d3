//! What the calls answer, and their limits: the types that every implementation shares.

#![no_std]
#![warn(missing_docs)]

use core::error::Error;
use core::fmt::{self, Display, Formatter};

/// Input bytes at most.
pub const MOST_INPUT: usize = 32_768;
/// Surviving steps at most, at any moment.
pub const MOST_STEPS: usize = 16_384;
/// How far from 0 a coordinate of a start may be.
pub const MOST_START: i32 = 16_384;
/// Panels along a side of a block at most.
pub const MOST_GRID: u32 = 16_384;
/// Words in a record.
pub const RECORD_WORDS: usize = 25;
/// Words of the marks for each operation: nodes in use, visits at the corner where it ends, records that changed.
pub const MARK_WORDS: usize = 3;
/// Records in a table at most.
pub const MOST_RECORDS: usize = 131_148;
/// Words in a record that two parties share.
pub const PAIR_RECORD_WORDS: usize = 36;
/// Records at most in a table that two parties share.
pub const MOST_PAIR_RECORDS: usize = 262_296;
/// j and k if there is no meeting.
pub const NO_MEETING: u32 = 65_535;
/// Operations or turns in a line at most.
pub const MOST_LINE_DIGITS: usize = 1_024;
/// Records of the table in which a line is walked.
pub const LINE_RECORDS: usize = 320;
/// Bytes of a buffer that holds the answer to any line.
pub const LINE_BYTES: usize = 8_240;
/// Words of the answer to a walk at the C boundary: number, place, verdict, n, nodes, different corners, j, k, area, last x,
/// last y.
pub const WALK_ANSWER_WORDS: usize = 11;
/// Words of the answer to two parties: number, place, nodes; then for party 0 and again for party 1 verdict, n, different
/// corners, j, k, area, last x, last y.
pub const WALK_TWO_ANSWER_WORDS: usize = 19;
/// Words of the answer to a hull: number, place, count.
pub const HULL_ANSWER_WORDS: usize = 3;
/// Words of the answer to an outline: number, place, steps.
pub const OUTLINE_ANSWER_WORDS: usize = 3;
/// Words of the answer to a room that is written as a polygon: number, place, bytes.
pub const POLYGON_ANSWER_WORDS: usize = 3;
/// Words of the answer to a room that is listed by rows: number, place, spans.
pub const ROWS_ANSWER_WORDS: usize = 3;
/// Words of the answer to two rooms laid over each other: number, place, the panels in the first only, in the second only and
/// in both, and the spans of each.
pub const OVERLAY_ANSWER_WORDS: usize = 8;
/// Words of the answer to the question whether a room is convex: number, place, 1 for yes or 0 for no.
pub const CONVEX_ANSWER_WORDS: usize = 3;
/// Words of the answer to an orthogonal hull: number, place, steps, start x, start y, blocks.
pub const ORTHOGONAL_ANSWER_WORDS: usize = 6;
/// Words of the answer to a polygon that is read: number, place, steps, start x, start y.
pub const CHAIN_ANSWER_WORDS: usize = 5;
/// Words of the answer to a conversion between steps and turns: number, place.
pub const TURNS_ANSWER_WORDS: usize = 2;

/// The words of a record, by their first place: the names of the code and of the C header.
pub mod word {
    /// Ref of the parent.
    pub const PARENT: usize = 0;
    /// Refs of the children: child (i,j) stands at `CHILD` + 3(i+1) + (j+1).
    pub const CHILD: usize = 1;
    /// Refs of the linked neighbours east, north, west, south.
    pub const NEIGHBOUR: usize = 10;
    /// The steps of these four links, 0 if there is none.
    pub const LINK_STEP: usize = 14;
    /// Visits.
    pub const VISITS: usize = 18;
    /// The step that first needed the node, 0 for the start and its ancestors.
    pub const NEED: usize = 19;
    /// 1 + the least k with pk here, 0 if unvisited.
    pub const FIRST: usize = 20;
    /// How often surviving steps used the edge east, north, west, south, either way.
    pub const EDGE: usize = 21;

    /// The word of party `q`, 0 or 1, in a record that two parties share, by its place from [`LINK_STEP`] on in the record of
    /// one walk. There the step that first needed the node is stored plus 1, and 0 if the party does not need the node.
    pub const fn of(q: usize, word: usize) -> usize {
        11 * q + word
    }
}

/// A corner of the grid, by its coordinates (docs/RULES.md, rule 1.2). x grows to the east and y to the north.
#[derive(Clone, Copy, Debug, Default, PartialEq, Eq, Hash, PartialOrd, Ord)]
pub struct Corner {
    /// East of the origin.
    pub x: i32,
    /// North of the origin.
    pub y: i32,
}

impl From<(i32, i32)> for Corner {
    fn from((x, y): (i32, i32)) -> Corner {
        Corner { x, y }
    }
}

impl From<Corner> for (i32, i32) {
    fn from(corner: Corner) -> (i32, i32) {
        (corner.x, corner.y)
    }
}

impl Display for Corner {
    fn fmt(&self, f: &mut Formatter) -> fmt::Result {
        write!(f, "({},{})", self.x, self.y)
    }
}

/// Why a call is refused. A place counts from 0 in the input.
#[derive(Clone, Copy, Debug, PartialEq, Eq)]
pub enum Refusal {
    /// More than [`MOST_INPUT`] bytes.
    TooMany,
    /// The table's words are not [`RECORD_WORDS`] times 1 to [`MOST_RECORDS`]; for two parties [`PAIR_RECORD_WORDS`] times 1 to
    /// [`MOST_PAIR_RECORDS`].
    Table,
    /// A result buffer does not have the length that the input asks for.
    ResultRoom,
    /// An operation above 4 in a walk or in a byte of a party, a byte above 3 elsewhere.
    BadDigit(u32),
    /// Operation 4 with no surviving step, of that party if there are two.
    NothingToTake(u32),
    /// A step that would survive as one more than [`MOST_STEPS`], of that party if there are two.
    TooLong(u32),
    /// "No room": after this operation, or before the first, more nodes are needed than the table has records.
    NoRoom(u32),
    /// The buffer is shorter than twice the hull corners.
    HullRoom,
    /// The line is not a frame.
    BadLine,
    /// A coordinate of the start is farther than [`MOST_START`] from 0.
    StartRange,
    /// The buffer is shorter than the outline.
    OutlineRoom,
    /// The walk is not a room.
    NotRoom,
    /// The buffer is shorter than the polygon.
    PolygonRoom,
    /// A file shorter than a polygon's header, or not of the length that its points ask for.
    FileLength,
    /// A file with another byte order, type or ring count than a polygon of one ring has.
    FileKind,
    /// A coordinate in a file is not a whole multiple of 600, or is too far out.
    BadCoordinate,
    /// A slant, a repeated point, fewer than four points, or a ring that is not closed.
    BadRing,
    /// The buffer is shorter than the chain.
    ChainRoom,
    /// A frame of kind 01, which is retired.
    RetiredKind,
    /// A byte above 31, in a call of two parties.
    UnknownParty(u32),
    /// The buffer is shorter than three numbers for each span.
    SpanRoom,
    /// A grid size that is 0 or above [`MOST_GRID`].
    GridSize,
}

impl Refusal {
    /// The refusal with this number and place, if there is one with this number.
    pub fn of(number: u32, place: u32) -> Option<Refusal> {
        Some(match number {
            1 => Refusal::TooMany,
            2 => Refusal::Table,
            3 => Refusal::ResultRoom,
            4 => Refusal::BadDigit(place),
            5 => Refusal::NothingToTake(place),
            6 => Refusal::TooLong(place),
            7 => Refusal::NoRoom(place),
            8 => Refusal::HullRoom,
            9 => Refusal::BadLine,
            10 => Refusal::StartRange,
            11 => Refusal::OutlineRoom,
            12 => Refusal::NotRoom,
            13 => Refusal::PolygonRoom,
            14 => Refusal::FileLength,
            15 => Refusal::FileKind,
            16 => Refusal::BadCoordinate,
            17 => Refusal::BadRing,
            18 => Refusal::ChainRoom,
            19 => Refusal::RetiredKind,
            20 => Refusal::UnknownParty(place),
            21 => Refusal::SpanRoom,
            22 => Refusal::GridSize,
            _ => return None,
        })
    }

    /// The number.
    pub fn number(self) -> u32 {
        match self {
            Refusal::TooMany => 1,
            Refusal::Table => 2,
            Refusal::ResultRoom => 3,
            Refusal::BadDigit(_) => 4,
            Refusal::NothingToTake(_) => 5,
            Refusal::TooLong(_) => 6,
            Refusal::NoRoom(_) => 7,
            Refusal::HullRoom => 8,
            Refusal::BadLine => 9,
            Refusal::StartRange => 10,
            Refusal::OutlineRoom => 11,
            Refusal::NotRoom => 12,
            Refusal::PolygonRoom => 13,
            Refusal::FileLength => 14,
            Refusal::FileKind => 15,
            Refusal::BadCoordinate => 16,
            Refusal::BadRing => 17,
            Refusal::ChainRoom => 18,
            Refusal::RetiredKind => 19,
            Refusal::UnknownParty(_) => 20,
            Refusal::SpanRoom => 21,
            Refusal::GridSize => 22,
        }
    }

    /// The place, 0 if the refusal has none.
    pub fn place(self) -> u32 {
        self.place_if_any().unwrap_or(0)
    }

    fn place_if_any(self) -> Option<u32> {
        match self {
            Refusal::BadDigit(place)
            | Refusal::NothingToTake(place)
            | Refusal::TooLong(place)
            | Refusal::NoRoom(place)
            | Refusal::UnknownParty(place) => Some(place),
            _ => None,
        }
    }

    /// The refusal in a few words, without its number and place.
    pub fn words(self) -> &'static str {
        match self {
            Refusal::TooMany => "more than 32,768 bytes of input",
            Refusal::Table => {
                "the table does not have a whole number of records, or has none, or too many"
            }
            Refusal::ResultRoom => "a buffer does not have the length that the input asks for",
            Refusal::BadDigit(_) => "a bad digit",
            Refusal::NothingToTake(_) => "nothing to take back",
            Refusal::TooLong(_) => "more than 16,384 surviving steps",
            Refusal::NoRoom(_) => "the table is full",
            Refusal::HullRoom => "the buffer is shorter than two numbers for each hull corner",
            Refusal::BadLine => "not a frame",
            Refusal::StartRange => "a coordinate of the start is beyond 16,384",
            Refusal::OutlineRoom => "the buffer is shorter than the outline",
            Refusal::NotRoom => "not a room",
            Refusal::PolygonRoom => "the buffer is shorter than the polygon",
            Refusal::FileLength => "the file does not have 13 bytes and 16 for each point",
            Refusal::FileKind => "the file is not a polygon of one ring",
            Refusal::BadCoordinate => {
                "a coordinate is not a whole multiple of 600, or is too far out"
            }
            Refusal::BadRing => {
                "the ring is slanted, repeats a point, is too short or is not closed"
            }
            Refusal::ChainRoom => "the buffer is shorter than the chain",
            Refusal::RetiredKind => "a frame with turns, which are retired",
            Refusal::UnknownParty(_) => "a byte of neither party",
            Refusal::SpanRoom => "a buffer is shorter than three numbers for each span",
            Refusal::GridSize => "the grid size is not a number from 1 to 16,384",
        }
    }
}

/// `not a room (refusal 12)`, `a bad digit (refusal 4 at place 2)`
impl Display for Refusal {
    fn fmt(&self, f: &mut Formatter) -> fmt::Result {
        write!(f, "{} (refusal {}", self.words(), self.number())?;
        match self.place_if_any() {
            Some(place) => write!(f, " at place {place})"),
            None => f.write_str(")"),
        }
    }
}

impl Error for Refusal {}

/// What the surviving steps make of the walk: it is closed if it ends where it began, and crossed if it has a meeting other
/// than that of its start and end.
#[derive(Clone, Copy, Debug, PartialEq, Eq)]
#[repr(u32)]
pub enum Verdict {
    /// No step survives.
    Nowhere = 0,
    /// Open, not crossed.
    Open = 1,
    /// Closed, not crossed, four steps or more.
    Room = 2,
    /// Open, crossed.
    OpenMeeting = 3,
    /// Closed, crossed.
    ClosedMeeting = 4,
    /// Closed after two steps.
    ThereAndBack = 5,
}

impl Verdict {
    /// The verdict with this number.
    pub fn of(number: u32) -> Option<Verdict> {
        use Verdict::*;
        [
            Nowhere,
            Open,
            Room,
            OpenMeeting,
            ClosedMeeting,
            ThereAndBack,
        ]
        .into_iter()
        .find(|&verdict| verdict as u32 == number)
    }
}

/// The facts of an accepted walk.
#[derive(Clone, Copy, Debug, PartialEq, Eq)]
pub struct Facts {
    /// What the surviving steps make of the walk.
    pub verdict: Verdict,
    /// n, the number of surviving steps.
    pub steps: u32,
    /// Nodes in use.
    pub nodes: u32,
    /// Different corners among p0 to pn.
    pub corners: u32,
    /// j and k of the first meeting.
    pub meeting: Option<(u32, u32)>,
    /// The signed area of a room, 0 for the other verdicts.
    pub area: i32,
    /// pn, the last corner.
    pub last: Corner,
}

/// The facts of one party's walk in a table that two share.
#[derive(Clone, Copy, Debug, PartialEq, Eq)]
pub struct PartyFacts {
    /// What the surviving steps make of the walk.
    pub verdict: Verdict,
    /// n, the number of surviving steps.
    pub steps: u32,
    /// Different corners among p0 to pn.
    pub corners: u32,
    /// j and k of the first meeting.
    pub meeting: Option<(u32, u32)>,
    /// The signed area of a room, 0 for the other verdicts.
    pub area: i32,
    /// pn, the last corner.
    pub last: Corner,
}

impl PartyFacts {
    /// The same facts for a walk alone in its table, with the nodes in use there.
    pub fn alone(self, nodes: u32) -> Facts {
        Facts {
            verdict: self.verdict,
            steps: self.steps,
            nodes,
            corners: self.corners,
            meeting: self.meeting,
            area: self.area,
            last: self.last,
        }
    }
}

/// The facts of an accepted call of two parties.
#[derive(Clone, Copy, Debug, PartialEq, Eq)]
pub struct PairFacts {
    /// Nodes that either party needs, each once.
    pub nodes: u32,
    /// Party 0 and party 1.
    pub parties: [PartyFacts; 2],
}

/// How many panels and how many spans a part of two rooms has.
#[derive(Clone, Copy, Debug, PartialEq, Eq)]
pub struct Measure {
    /// Panels.
    pub panels: usize,
    /// Spans of panels.
    pub spans: usize,
}

/// The parts of two rooms that are laid over each other.
#[derive(Clone, Copy, Debug, PartialEq, Eq)]
pub struct Overlaid {
    /// In the first room only.
    pub first: Measure,
    /// In the second room only.
    pub second: Measure,
    /// In both.
    pub both: Measure,
}

/// The outline of the orthogonal hull of a room, in blocks.
#[derive(Clone, Copy, Debug, PartialEq, Eq)]
pub struct OrthogonalHull {
    /// The corner at which it starts: the lowest of the leftmost.
    pub start: Corner,
    /// Its steps.
    pub steps: usize,
    /// The blocks inside.
    pub blocks: usize,
}
