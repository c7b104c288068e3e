//! Exact decimal numbers, as the library has them.

/// How many digits a fraction has at most.
pub(crate) const PLACES: usize = 18;
const UNIT: u128 = 1_000_000_000_000_000_000;

/// A whole part below 2^64 and a fraction in units of 10^-18. Zero has no sign.
#[derive(Clone, Copy, Debug, Eq, PartialEq)]
pub(crate) struct Decimal {
    units: i128,
}

impl Decimal {
    /// The number that a text writes, and the count of digits after its point: a sign if it likes, digits, and a point if it
    /// likes. `None` for other texts, for a whole part from 2^64 on, and for more than 18 digits after the point.
    pub(crate) fn read(text: &str) -> Option<(Self, Option<usize>)> {
        let (negative, size) = match text.as_bytes().first()? {
            b'-' => (true, &text[1..]),
            b'+' => (false, &text[1..]),
            _ => (false, text),
        };
        let (whole, fraction) = match size.split_once('.') {
            Some((whole, fraction)) => (whole, Some(fraction)),
            None => (size, None),
        };
        let places = fraction.map(str::len);
        let digits = fraction.unwrap_or("");
        if digits.len() > PLACES || (whole.is_empty() && digits.is_empty()) {
            return None;
        }
        let shift = 10u128.pow((PLACES - digits.len()) as u32);
        let units = u128::from(value_of(whole)?) * UNIT + u128::from(value_of(digits)?) * shift;
        Some((Self::signed(negative, units), places))
    }

    /// A whole number, where its size is below 2^64.
    pub(crate) fn whole(number: i128) -> Option<Self> {
        let size = u64::try_from(number.unsigned_abs()).ok()?;
        Some(Self::signed(number < 0, u128::from(size) * UNIT))
    }

    /// The number that is the shortest text of a float.
    pub(crate) fn of(value: f64) -> Option<Self> {
        // Whole numbers of this size are exact, and need no text.
        if value.trunc() == value && value.abs() < 9e15 {
            return Self::whole(value as i128);
        }
        Self::read(&value.to_string()).map(|(number, _)| number)
    }

    fn signed(negative: bool, size: u128) -> Self {
        let units = size as i128;
        Self {
            units: if negative { -units } else { units },
        }
    }

    /// The whole part, cut toward zero.
    pub(crate) fn truncated(self) -> i128 {
        self.units / UNIT as i128
    }

    /// How many digits its fraction has, without zeros at the end.
    pub(crate) fn places(self) -> usize {
        let mut rest = self.units.unsigned_abs() % UNIT;
        let mut places = PLACES;
        while places > 0 && rest % 10 == 0 {
            rest /= 10;
            places -= 1;
        }
        places
    }

    /// Its text with so many digits after the point at least, and with a point where there is such a minimum.
    pub(crate) fn text(self, minimum: Option<usize>) -> String {
        let size = self.units.unsigned_abs();
        let sign = if self.units < 0 { "-" } else { "" };
        let shown = self.places().max(minimum.unwrap_or(0).min(PLACES));
        if shown == 0 && minimum.is_none() {
            return format!("{sign}{}", size / UNIT);
        }
        let digits = format!("{:018}", size % UNIT);
        format!("{sign}{}.{}", size / UNIT, &digits[..shown])
    }
}

/// The number that digits write, 0 where there are none, `None` where it is 2^64 or more.
fn value_of(digits: &str) -> Option<u64> {
    digits.bytes().try_fold(0u64, |value, byte| {
        let digit = byte.is_ascii_digit().then(|| u64::from(byte - b'0'))?;
        value.checked_mul(10)?.checked_add(digit)
    })
}

#[cfg(test)]
mod tests {
    use super::*;

    fn read(text: &str) -> Option<(String, Option<usize>)> {
        Decimal::read(text).map(|(number, places)| (number.text(None), places))
    }

    fn is(text: &str, places: Option<usize>) -> Option<(String, Option<usize>)> {
        Some((text.to_string(), places))
    }

    #[test]
    fn texts_are_read() {
        assert_eq!(read("0"), is("0", None));
        assert_eq!(read("-0.00"), is("0", Some(2)));
        assert_eq!(read("+7."), is("7", Some(0)));
        assert_eq!(read(".5"), is("0.5", Some(1)));
        assert_eq!(read("007.10"), is("7.1", Some(2)));
        assert_eq!(
            read("18446744073709551615"),
            is("18446744073709551615", None)
        );
        assert_eq!(
            read("-1.000000000000000001"),
            is("-1.000000000000000001", Some(18))
        );
    }

    #[test]
    fn other_texts_are_no_numbers() {
        for text in [
            "",
            "-",
            ".",
            "+.",
            "1e5",
            "inf",
            "NaN",
            "1 ",
            "--1",
            "1.2.3",
            "18446744073709551616",
            "0.0000000000000000000",
        ] {
            assert_eq!(read(text), None, "{text}");
        }
    }

    #[test]
    fn a_minimum_adds_zeros_and_a_point() {
        let number = |text| Decimal::read(text).map(|(number, _)| number);
        assert_eq!(number("5").map(|n| n.text(Some(0))), Some("5.".to_string()));
        assert_eq!(
            number("5").map(|n| n.text(Some(2))),
            Some("5.00".to_string())
        );
        assert_eq!(
            number("5.25").map(|n| n.text(Some(1))),
            Some("5.25".to_string())
        );
        let many = number("5").map(|n| n.text(Some(400)));
        assert_eq!(many, Some(format!("5.{}", "0".repeat(18))));
    }

    #[test]
    fn floats_are_their_shortest_texts() {
        let text = |value| Decimal::of(value).map(|number| number.text(None));
        assert_eq!(text(0.1), Some("0.1".to_string()));
        assert_eq!(text(-0.0), Some("0".to_string()));
        assert_eq!(text(1e19), Some("10000000000000000000".to_string()));
        assert_eq!(text(1e20), None);
        assert_eq!(text(1e-19), None);
        assert_eq!(text(f64::NAN), None);
        assert_eq!(text(f64::NEG_INFINITY), None);
    }
}
