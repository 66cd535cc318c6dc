//! Numbers as they are written down.

use std::fmt::{self, Display, Formatter};

/// A number, given by its 64 bits, as the shortest decimal that reads back to them; the bits themselves for an infinity or a NaN.
pub struct Number(pub u64);

impl Number {
    pub fn is_decimal(&self) -> bool {
        f64::from_bits(self.0).is_finite()
    }
}

impl Display for Number {
    fn fmt(&self, f: &mut Formatter<'_>) -> fmt::Result {
        if !self.is_decimal() {
            return write!(f, "bits:{:016X}", self.0);
        }
        let decimal = format!("{:?}", f64::from_bits(self.0));
        match decimal.strip_suffix(".0") {
            // A reader that took it for a whole number would lose the sign.
            None | Some("-0") => f.write_str(&decimal),
            Some(whole) => f.write_str(whole),
        }
    }
}
