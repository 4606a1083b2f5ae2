//! Positions in the plane, for pictures and picks.

/// A position in the plane, or on a page.
#[derive(Clone, Copy, Debug, PartialEq)]
pub struct Position {
    /// The coordinate to the right.
    pub x: f64,
    /// The coordinate upwards; on a page it goes down.
    pub y: f64,
}

impl Position {
    /// The position with these coordinates.
    pub const fn new(x: f64, y: f64) -> Position {
        Position { x, y }
    }

    /// The position at a share of the way to another.
    pub fn towards(self, other: Position, share: f64) -> Position {
        Position::new(self.x + (other.x - self.x) * share, self.y + (other.y - self.y) * share)
    }

    /// How far another is.
    pub fn distance(self, other: Position) -> f64 {
        (self.x - other.x).hypot(self.y - other.y)
    }

    /// The direction in which another lies, in radians.
    pub fn angle_to(self, other: Position) -> f64 {
        (other.y - self.y).atan2(other.x - self.x)
    }

    /// The position at a distance in a direction.
    pub fn step(self, angle: f64, distance: f64) -> Position {
        Position::new(self.x + distance * angle.cos(), self.y + distance * angle.sin())
    }
}

/// A rectangle along the axes.
#[derive(Clone, Copy, Debug, PartialEq)]
pub struct Bounds {
    /// The corner with the lesser coordinates.
    pub low: Position,
    /// The corner with the greater coordinates.
    pub high: Position,
}

impl Bounds {
    /// The least rectangle about all positions, or none where there are none.
    pub fn of(positions: impl IntoIterator<Item = Position>) -> Option<Bounds> {
        let boxes = positions.into_iter().map(|position| Bounds { low: position, high: position });
        boxes.reduce(|all, one| Bounds {
            low: Position::new(all.low.x.min(one.low.x), all.low.y.min(one.low.y)),
            high: Position::new(all.high.x.max(one.high.x), all.high.y.max(one.high.y)),
        })
    }

    /// How far it reaches along x.
    pub fn width(&self) -> f64 {
        self.high.x - self.low.x
    }

    /// How far it reaches along y.
    pub fn height(&self) -> f64 {
        self.high.y - self.low.y
    }

    /// The rectangle with so much more at each of its four edges.
    pub fn grown(&self, by: f64) -> Bounds {
        Bounds {
            low: Position::new(self.low.x - by, self.low.y - by),
            high: Position::new(self.high.x + by, self.high.y + by),
        }
    }
}
