//! Counts the kinds of inputs: each must come often.

use crate::inputs::Slab;
use std::collections::BTreeMap;

#[derive(Clone, Copy, Debug, PartialEq, Eq, PartialOrd, Ord)]
pub enum Kind {
    Miss,
    /// A hit by the edge of this number.
    Edge(u64),
    /// A hit at a corner: several dimensions are entered where the interval starts.
    Corner,
    /// A hit that lies on an edge of the box.
    AlongAnEdge,
    /// A hit of a line that goes along in this dimension: in the plane an upright one, or a level one.
    Parallel(usize),
    /// Both quotients of the edge's dimension are equal.
    Equal,
    /// They are zeros of both signs.
    Zeros,
    /// One of them is a NaN.
    OneIsNaN,
    /// The low corner is above the high one there.
    Reversed,
    /// A hit by no edge, with a dimension that is entered exactly at the lowest finite float.
    Lowest,
    /// A hit with a subnormal number.
    Subnormal,
    /// An edge that the mirror exchanges with the other.
    Exchanged,
    /// One that the mirror leaves.
    Kept,
    /// An infinity, and a NaN, at this place of this dimension.
    Infinite(usize, usize),
    NaN(usize, usize),
}

#[derive(Default)]
pub struct Kinds {
    counts: BTreeMap<Kind, u64>,
}

impl Kinds {
    fn count(&mut self, kind: Kind, when: bool) {
        *self.counts.entry(kind).or_default() += u64::from(when);
    }

    /// Whether the mirror exchanged the edges, where the line comes in by one of them.
    pub fn exchanged(&mut self, exchanged: Option<bool>) {
        self.count(Kind::Exchanged, exchanged == Some(true));
        self.count(Kind::Kept, exchanged == Some(false));
    }

    pub fn add(&mut self, slabs: &[Slab], hit: Option<[u64; 3]>) {
        for (k, slab) in slabs.iter().enumerate() {
            for (place, x) in slab.numbers().into_iter().enumerate() {
                self.count(Kind::Infinite(k, place), x.is_infinite());
                self.count(Kind::NaN(k, place), x.is_nan());
            }
        }
        self.count(Kind::Miss, hit.is_none());
        let Some([tmin, _, edge]) = hit else { return };
        for number in 0..=2 * slabs.len() as u64 {
            self.count(Kind::Edge(number), number == edge);
        }
        let tmin = f32::from_bits(tmin as u32);
        let entered_at = |t: f32| {
            slabs.iter().filter(move |slab| slab.quotients().is_some_and(|[p, q]| p.min(q) == t))
        };
        self.count(Kind::Corner, edge != 0 && entered_at(tmin).count() > 1);
        self.count(Kind::Lowest, edge == 0 && entered_at(f32::MIN).count() > 0);
        let is_along = |slab: &Slab| slab.direction == 0.0;
        let on_edge = |slab: &Slab| slab.origin == slab.low || slab.origin == slab.high;
        self.count(Kind::AlongAnEdge, slabs.iter().any(|slab| is_along(slab) && on_edge(slab)));
        for (k, slab) in slabs.iter().enumerate() {
            self.count(Kind::Parallel(k), is_along(slab));
        }
        let numbers = slabs.iter().flat_map(|slab| slab.numbers());
        self.count(Kind::Subnormal, numbers.filter(|x| x.is_subnormal()).count() > 0);
        let by = edge.checked_sub(1).map(|place| slabs[place as usize / 2]);
        let pair = by.as_ref().and_then(Slab::quotients);
        self.count(Kind::Equal, pair.is_some_and(|[p, q]| p == q));
        self.count(Kind::Zeros, pair.is_some_and(|[p, q]| p == q && p.to_bits() != q.to_bits()));
        self.count(Kind::OneIsNaN, pair.is_some_and(|[p, q]| p.is_nan() || q.is_nan()));
        self.count(Kind::Reversed, by.is_some_and(|slab| slab.low > slab.high));
    }

    /// How often each came in so many inputs. An error if one came less than once in 20,000.
    pub fn told(&self, inputs: u64) -> Result<String, String> {
        let rare = self.counts.iter().find(|(_, count)| **count < inputs / 20_000);
        if let Some((kind, count)) = rare {
            return Err(format!("of {inputs} inputs no more than {count} are {kind:?}"));
        }
        let special = |kind: &Kind| matches!(kind, Kind::Infinite(..) | Kind::NaN(..));
        let (special, others): (Vec<_>, Vec<_>) =
            self.counts.iter().partition(|(kind, _)| special(kind));
        let least = special.iter().map(|(_, count)| **count).min().unwrap_or(0);
        let others: Vec<_> = others.iter().map(|(kind, n)| format!("{kind:?} {n}")).collect();
        let others = others.join(", ");
        Ok(format!(
            "{inputs} inputs, no difference: {others}; an infinity and a NaN at each place {least} times or more"
        ))
    }
}
