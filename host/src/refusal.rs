//! The names of refusal.

/// The names of refusal, in the order of their numbers.
#[derive(Clone, Copy, PartialEq, Eq, Debug)]
pub enum Name {
    Nodes,
    Rows,
    Arcs,
    Ends,
    Room,
    Node,
    Loop,
    Capacity,
    Stale,
    Unordered,
    Ahead,
    Place,
    Line,
    Count,
    Long,
    Solution,
    Many,
    Starts,
    Minimum,
    Impossible,
    Bounded,
    Lower,
    NotMax,
}

impl Name {
    /// The number of the name.
    pub fn number(self) -> u32 {
        match self {
            Name::Nodes => 1,
            Name::Rows => 2,
            Name::Arcs => 3,
            Name::Ends => 4,
            Name::Room => 5,
            Name::Node => 6,
            Name::Loop => 7,
            Name::Capacity => 8,
            Name::Stale => 9,
            Name::Unordered => 10,
            Name::Ahead => 11,
            Name::Place => 12,
            Name::Line => 13,
            Name::Count => 14,
            Name::Long => 15,
            Name::Solution => 16,
            Name::Many => 17,
            Name::Starts => 18,
            Name::Minimum => 19,
            Name::Impossible => 20,
            Name::Bounded => 21,
            Name::Lower => 22,
            Name::NotMax => 23,
        }
    }

    /// The name as the desk program prints it.
    pub fn word(self) -> &'static str {
        match self {
            Name::Nodes => "NODES",
            Name::Rows => "ROWS",
            Name::Arcs => "ARCS",
            Name::Ends => "ENDS",
            Name::Room => "ROOM",
            Name::Node => "NODE",
            Name::Loop => "LOOP",
            Name::Capacity => "CAPACITY",
            Name::Stale => "STALE",
            Name::Unordered => "UNORDERED",
            Name::Ahead => "AHEAD",
            Name::Place => "PLACE",
            Name::Line => "LINE",
            Name::Count => "COUNT",
            Name::Long => "LONG",
            Name::Solution => "SOLUTION",
            Name::Many => "MANY",
            Name::Starts => "STARTS",
            Name::Minimum => "MINIMUM",
            Name::Impossible => "IMPOSSIBLE",
            Name::Bounded => "BOUNDED",
            Name::Lower => "LOWER",
            Name::NotMax => "NOTMAX",
        }
    }

    /// The refusal with this name at a place.
    pub fn at(self, place: u32) -> Refusal {
        Refusal { name: self, place }
    }
}

/// A refusal is its name and its place.
#[derive(Clone, Copy, PartialEq, Eq, Debug)]
pub struct Refusal {
    pub name: Name,
    pub place: u32,
}
