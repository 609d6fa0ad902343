//! Edges.
//!
//! Written by tests/generate from crates/slabs/src/crossing.rt; not to be edited.

/// An edge of a box, or in space a face of one, by which a line comes in.
#[derive(Clone, Copy, Debug, PartialEq, Eq, Hash)]
pub enum Edge {
    /// The edge at min_x.
    Left = 1,
    /// The edge at max_x.
    Right = 2,
    /// The edge at min_y.
    Lower = 3,
    /// The edge at max_y.
    Upper = 4,
    /// The face at min_z.
    Near = 5,
    /// The face at max_z.
    Far = 6,
}

impl Edge {
    /// The number of the edge, as C has it.
    #[inline]
    pub const fn number(self) -> u32 {
        self as u32
    }

    /// The edge with this number, and `None` for any other number. In the results of a whole face it
    /// is the fourth float of a line: `Edge::from_number(result[3] as u32)`.
    #[inline]
    pub const fn from_number(number: u32) -> Option<Edge> {
        match number {
            1 => Some(Edge::Left),
            2 => Some(Edge::Right),
            3 => Some(Edge::Lower),
            4 => Some(Edge::Upper),
            5 => Some(Edge::Near),
            6 => Some(Edge::Far),
            _ => None,
        }
    }
}
