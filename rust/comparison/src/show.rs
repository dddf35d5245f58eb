//! Times and ratios as a reader wants them, two or three digits and a unit; and bytes.

use std::time::Duration;

pub fn time(time: Duration) -> String {
    nanos(time.as_nanos() as f64)
}

/// A time of which parts of a nanosecond are known.
pub fn nanos(nanos: f64) -> String {
    let (value, unit) = match nanos {
        n if n < 1e3 => (n, "ns"),
        n if n < 1e6 => (n / 1e3, "us"),
        n if n < 1e9 => (n / 1e6, "ms"),
        n => (n / 1e9, "s"),
    };
    format!("{} {unit}", digits(value))
}

/// How many times as long the first took.
pub fn ratio(one: Duration, other: Duration) -> String {
    let ratio = one.as_secs_f64() / other.as_secs_f64();
    if ratio < 0.01 {
        return "< 0.01".into();
    }
    digits(ratio)
}

/// Bytes in hexadecimal, as the documents write them, without spaces.
pub fn hex(bytes: &[u8]) -> String {
    bytes.iter().map(|b| format!("{b:02x}")).collect()
}

fn digits(value: f64) -> String {
    match value {
        v if v < 1.0 => format!("{v:.2}"),
        v if v < 10.0 => format!("{v:.1}"),
        v => format!("{v:.0}"),
    }
}

#[cfg(test)]
mod tests {
    use super::*;

    #[test]
    fn times_have_their_unit() {
        assert_eq!(nanos(8.25), "8.2 ns");
        assert_eq!(time(Duration::from_nanos(109_400)), "109 us");
        assert_eq!(time(Duration::from_millis(2_800)), "2.8 s");
    }

    #[test]
    fn ratios_are_of_the_first() {
        let [one, other] = [100, 50].map(Duration::from_nanos);
        assert_eq!(ratio(one, other), "2.0");
        assert_eq!(ratio(other, one), "0.50");
        assert_eq!(ratio(one, Duration::from_secs(1)), "< 0.01");
    }
}
