//! Numbers to divide.

use super::Generator;

impl Generator {
    /// Two numbers of any size, and every other time two whose quotient is an exact half or next to one.
    pub fn division(&mut self) -> (i64, i64) {
        if self.random.chance(50) {
            return (self.of_any_size(), self.of_any_size());
        }
        let half = match self.random.below(20) {
            0 => 1 << 62,
            _ => 1 + (self.of_any_size().unsigned_abs() / 4) as i64,
        };
        let odd = 2 * self.random.range(0, (i64::MAX / half - 1) / 2) + 1;
        let left = (odd * half).saturating_add(self.random.pick(&[-1, 0, 0, 1]));
        (self.either_sign(-left), self.either_sign(-2 * half))
    }

    fn of_any_size(&mut self) -> i64 {
        let shift = self.random.below(64);
        self.random.draw() as i64 >> shift
    }

    /// The number or its opposite, where that has 64 bits.
    fn either_sign(&mut self, number: i64) -> i64 {
        match number.checked_neg() {
            Some(opposite) if self.random.chance(50) => opposite,
            _ => number,
        }
    }
}
