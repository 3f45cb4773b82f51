//! The three measures of an object's fields.

/// Quarters of a texel or of a pixel: widths, heights and frame positions (10.2).
#[derive(Clone, Copy, Debug, Default, PartialEq, Eq, PartialOrd, Ord, Hash)]
pub struct Quarters(pub i32);

/// Thirty-seconds of a texel: image positions and the origin (10.5, 20.5).
#[derive(Clone, Copy, Debug, Default, PartialEq, Eq, PartialOrd, Ord, Hash)]
pub struct ThirtySeconds(pub i32);

/// 1,024ths: how many texels a pixel is wide or high (5.10).
#[derive(Clone, Copy, Debug, Default, PartialEq, Eq, PartialOrd, Ord, Hash)]
pub struct Scale(pub u16);

impl Quarters {
    /// Whole texels or pixels, rounded down.
    #[must_use]
    pub const fn whole(self) -> i32 {
        self.0.div_euclid(4)
    }
}

impl ThirtySeconds {
    /// Whole texels, rounded down.
    #[must_use]
    pub const fn whole(self) -> i32 {
        self.0.div_euclid(32)
    }
}

impl From<Quarters> for f64 {
    fn from(number: Quarters) -> f64 {
        f64::from(number.0) / 4.0
    }
}

impl From<ThirtySeconds> for f64 {
    fn from(number: ThirtySeconds) -> f64 {
        f64::from(number.0) / 32.0
    }
}

impl From<Scale> for f64 {
    fn from(number: Scale) -> f64 {
        f64::from(number.0) / 1024.0
    }
}

#[cfg(test)]
mod tests {
    use super::*;

    #[test]
    fn whole_numbers_are_rounded_down() {
        assert_eq!(
            [7, 8, -1, -4, -5].map(|n| Quarters(n).whole()),
            [1, 2, -1, -1, -2]
        );
        assert_eq!(
            [31, 32, -1, -33].map(|n| ThirtySeconds(n).whole()),
            [0, 1, -1, -2]
        );
        assert_eq!(f64::from(Quarters(-3)), -0.75);
        assert_eq!(f64::from(ThirtySeconds(48)), 1.5);
        assert_eq!(f64::from(Scale(512)), 0.5);
    }
}
