//! Pairs and rectangles.

/// A width and a height.
#[derive(Copy, Clone, Debug, Default, PartialEq)]
pub struct Size<T> {
    /// Along x
    pub width: T,
    /// Along y
    pub height: T,
}

/// Something for x and for y.
#[derive(Copy, Clone, Debug, Default, PartialEq)]
pub struct Point<T> {
    /// Rightwards
    pub x: T,
    /// Downwards
    pub y: T,
}

/// A start and an end.
#[derive(Copy, Clone, Debug, Default, PartialEq)]
pub struct Line<T> {
    /// The left or top one
    pub start: T,
    /// The right or bottom one
    pub end: T,
}

/// Something for each of four sides.
#[derive(Copy, Clone, Debug, Default, PartialEq)]
pub struct Rect<T> {
    /// Left
    pub left: T,
    /// Right
    pub right: T,
    /// Top
    pub top: T,
    /// Bottom
    pub bottom: T,
}

impl Rect<f32> {
    /// The smallest rectangle that holds both, by their edges. A NaN loses to a number; -0 is below +0.
    pub fn union(self, other: Rect<f32>) -> Rect<f32> {
        Rect {
            left: smaller(self.left, other.left),
            right: larger(self.right, other.right),
            top: smaller(self.top, other.top),
            bottom: larger(self.bottom, other.bottom),
        }
    }
}

fn before(a: f32, b: f32) -> bool {
    a < b || (a == b && a.is_sign_negative() && b.is_sign_positive())
}
fn smaller(a: f32, b: f32) -> f32 {
    if a.is_nan() || before(b, a) {
        b
    } else {
        a
    }
}
fn larger(a: f32, b: f32) -> f32 {
    if a.is_nan() || before(a, b) {
        b
    } else {
        a
    }
}

#[cfg(test)]
mod tests {
    use super::*;

    #[test]
    fn union_takes_the_outer_edges() {
        let a = Rect { left: -0.0, right: 1.0, top: f32::NAN, bottom: 2.0 };
        let b = Rect { left: 0.0, right: 5.0, top: 3.0, bottom: f32::NAN };
        for r in [a.union(b), b.union(a)] {
            assert_eq!(r.left.to_bits(), (-0.0f32).to_bits());
            assert_eq!((r.right, r.top, r.bottom), (5.0, 3.0, 2.0));
        }
    }
}
