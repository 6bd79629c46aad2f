//! Rectangles and lines on the grid, in the picture's units.

/// A rectangle.
#[derive(Clone, Copy, Debug, PartialEq)]
pub(super) struct Rectangle {
    pub left: f64,
    pub right: f64,
    pub top: f64,
    pub bottom: f64,
}

impl Rectangle {
    /// The rectangle with a middle, a width and a height.
    pub(super) fn around((x, y): (f64, f64), (width, height): (f64, f64)) -> Rectangle {
        Rectangle { left: x - width / 2.0, right: x + width / 2.0, top: y - height / 2.0, bottom: y + height / 2.0 }
    }

    pub(super) fn middle(&self) -> (f64, f64) {
        ((self.left + self.right) / 2.0, (self.top + self.bottom) / 2.0)
    }

    /// The rectangle made larger on all sides by some room.
    pub(super) fn wider(&self, room: f64) -> Rectangle {
        let Rectangle { left, right, top, bottom } = *self;
        Rectangle { left: left - room, right: right + room, top: top - room, bottom: bottom + room }
    }

    /// The rectangle with at least a width and height, made larger around its middle.
    pub(super) fn at_least(&self, length: f64) -> Rectangle {
        let Rectangle { left, right, top, bottom } = *self;
        let (across, down) = ((length - (right - left)).max(0.0) / 2.0, (length - (bottom - top)).max(0.0) / 2.0);
        Rectangle { left: left - across, right: right + across, top: top - down, bottom: bottom + down }
    }

    /// The rectangle moved by as little as it takes to lie within another one, if it is not larger.
    pub(super) fn moved_into(&self, other: &Rectangle) -> Rectangle {
        let (left, right) = moved_between((self.left, self.right), (other.left, other.right));
        let (top, bottom) = moved_between((self.top, self.bottom), (other.top, other.bottom));
        Rectangle { left, right, top, bottom }
    }

    /// The least rectangle that holds both.
    pub(super) fn with(&self, other: &Rectangle) -> Rectangle {
        Rectangle {
            left: self.left.min(other.left),
            right: self.right.max(other.right),
            top: self.top.min(other.top),
            bottom: self.bottom.max(other.bottom),
        }
    }

    /// Whether a point lies inside.
    pub(super) fn holds(&self, (x, y): (f64, f64)) -> bool {
        x > self.left && x < self.right && y > self.top && y < self.bottom
    }

    /// Whether two rectangles share more than an edge.
    pub(super) fn overlaps(&self, other: &Rectangle) -> bool {
        self.left < other.right && other.left < self.right && self.top < other.bottom && other.top < self.bottom
    }

    pub(super) fn area(&self) -> f64 {
        (self.right - self.left) * (self.bottom - self.top)
    }

    /// The area that two rectangles share.
    pub(super) fn shared_area(&self, other: &Rectangle) -> f64 {
        let across = self.right.min(other.right) - self.left.max(other.left);
        let down = self.bottom.min(other.bottom) - self.top.max(other.top);
        across.max(0.0) * down.max(0.0)
    }

    /// Whether it lies within another rectangle.
    pub(super) fn is_within(&self, other: &Rectangle) -> bool {
        self.left >= other.left && self.right <= other.right && self.top >= other.top && self.bottom <= other.bottom
    }

    /// Its four sides, those on top and on the left first.
    pub(super) fn sides(&self) -> Vec<Line> {
        let Rectangle { left, right, top, bottom } = *self;
        let across = |y: f64| Line { start: (left, y), length: right - left, down: false };
        let down = |x: f64| Line { start: (x, top), length: bottom - top, down: true };
        vec![across(top), down(left), across(bottom), down(right)]
    }

    pub(super) fn path(&self) -> String {
        let Rectangle { left, right, top, bottom } = self;
        format!("M{left:.1} {top:.1}H{right:.1}V{bottom:.1}H{left:.1}z")
    }
}

/// A stretch moved by as little as it takes to lie between two ends, if it is not longer.
fn moved_between((from, to): (f64, f64), (least, most): (f64, f64)) -> (f64, f64) {
    if to > most {
        (from - (to - most), most)
    } else if from < least {
        (least, to + (least - from))
    } else {
        (from, to)
    }
}

/// A line to the right or down from a start.
#[derive(Clone, Copy, Debug, PartialEq)]
pub(super) struct Line {
    pub start: (f64, f64),
    pub length: f64,
    pub down: bool,
}

impl Line {
    /// The point at a length from the start.
    pub(super) fn point(&self, along: f64) -> (f64, f64) {
        let (x, y) = self.start;
        if self.down { (x, y + along) } else { (x + along, y) }
    }

    /// The rectangle from its start to its end.
    pub(super) fn frame(&self) -> Rectangle {
        let ((left, top), (right, bottom)) = (self.start, self.point(self.length));
        Rectangle { left, right, top, bottom }
    }

    /// Whether the line runs through a rectangle.
    pub(super) fn crosses(&self, rectangle: &Rectangle) -> bool {
        self.frame().wider(0.5).overlaps(rectangle)
    }

    pub(super) fn path(&self) -> String {
        let (x, y) = self.start;
        format!("M{x} {y}{}{}", if self.down { 'v' } else { 'h' }, self.length)
    }
}
