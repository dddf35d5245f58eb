//! What one size gave on each side, and what the sizes of a family come to.

use crate::case::Measured;
use crate::families::Family;
use hurnavis_comparison::show;
use std::time::Duration;

/// A decision that takes longer is an open case.
pub const OPEN: Duration = Duration::from_millis(10);

/// The heads of the tables.
pub const RAW: &str = "\
| family | size | answer | Hurnavis | independent | ratio |
|---|---|---|---|---|---|";
pub const SUMMARY: &str = "\
| family | sizes | slowest | independent side there |
|---|---|---|---|";
pub const TEXTS: &str = "\
| text | bytes | answer | Hurnavis | for a byte | independent | ratio |
|---|---|---|---|---|---|---|";
pub const DRAFTS: &str = "\
| step | entries | answer | Hurnavis | independent | ratio |
|---|---|---|---|---|---|";

/// One size; nothing where a side took too long or gave up.
pub struct Row {
    pub size: usize,
    pub hurnavis: Option<Measured>,
    pub independent: Option<Measured>,
}

impl Row {
    pub fn disagrees(&self) -> bool {
        match (&self.hurnavis, &self.independent) {
            (Some(one), Some(other)) => one.answer != other.answer,
            _ => false,
        }
    }

    /// What the call took; too long is longest.
    fn time(&self) -> Duration {
        self.hurnavis.as_ref().map_or(Duration::MAX, |m| m.time)
    }

    pub fn is_open(&self) -> bool {
        self.time() > OPEN
    }

    fn answer(&self) -> &str {
        let known = self.hurnavis.as_ref().or(self.independent.as_ref());
        known.map_or("unknown", |m| m.answer.as_str())
    }

    fn shown_time(&self) -> String {
        shown(&self.hurnavis, "> 2 s")
    }

    fn ratio(&self) -> String {
        match (&self.hurnavis, &self.independent) {
            (Some(one), Some(other)) => show::ratio(one.time, other.time),
            _ => "".into(),
        }
    }

    /// The row of the table of all sizes.
    pub fn raw(&self, family: &Family) -> String {
        format!(
            "| {} | {} {} | {} | {} | {} | {} |",
            family.name,
            family.size,
            self.size,
            self.answer(),
            self.shown_time(),
            shown(&self.independent, "gives up"),
            self.ratio(),
        )
    }

    /// The row of the table of texts, of which the size is the length.
    pub fn text(&self, family: &Family) -> String {
        let for_a_byte = |m: &Measured| show::nanos(m.time.as_nanos() as f64 / self.size as f64);
        format!(
            "| {} | {} | {} | {} | {} | {} | {} |",
            family.name,
            self.size,
            self.answer(),
            self.shown_time(),
            self.hurnavis.as_ref().map_or("".into(), for_a_byte),
            shown(&self.independent, "gives up"),
            self.ratio(),
        )
    }

    /// The row of the table of drafts, of which the size is the number of entries.
    pub fn draft(&self, family: &Family) -> String {
        format!(
            "| {} | {} | {} | {} | {} | {} |",
            family.name,
            self.size,
            self.answer(),
            self.shown_time(),
            shown(&self.independent, "gives up"),
            self.ratio(),
        )
    }

    /// The line of the list of open cases.
    pub fn open(&self, family: &Family) -> String {
        let time = self.shown_time();
        let answer = self.answer();
        format!(
            "- {}, {} {}: {time}, {answer}",
            family.name, family.size, self.size
        )
    }
}

fn shown(measured: &Option<Measured>, otherwise: &str) -> String {
    measured
        .as_ref()
        .map_or(otherwise.into(), |m| show::time(m.time))
}

/// The one row of a family: from which size to which, the slowest of them, and the independent side at that one.
pub fn summary(family: &Family, rows: &[Row]) -> Option<String> {
    let (first, last) = (rows.first()?, rows.last()?);
    // Of equally slow ones the first.
    let slowest = rows.iter().rev().max_by_key(|row| row.time())?;
    Some(format!(
        "| {} | {} {} to {} | {} at {} | {} |",
        family.name,
        family.size,
        first.size,
        last.size,
        slowest.shown_time(),
        slowest.size,
        independent(family, rows, slowest),
    ))
}

/// Its time at this size, or that it gives up there, and from which size on it does.
fn independent(family: &Family, rows: &[Row], at: &Row) -> String {
    let given_up = rows.iter().find(|row| row.independent.is_none());
    match (&at.independent, given_up) {
        (None, Some(from)) if family.grows => format!("gives up from {}", from.size),
        _ => shown(&at.independent, "gives up"),
    }
}

#[cfg(test)]
mod tests {
    use super::*;
    use crate::families;

    fn row(size: usize, hurnavis: Option<u64>, independent: Option<u64>) -> Row {
        let measured = |micros| Measured {
            answer: "possible".into(),
            time: Duration::from_micros(micros),
        };
        Row {
            size,
            hurnavis: hurnavis.map(measured),
            independent: independent.map(measured),
        }
    }

    #[test]
    fn the_slowest_size_stands_for_its_family() {
        let family = families::growing("family", "n", &[], |_| unreachable!());
        let rows = [
            row(1, Some(5), Some(7)),
            row(2, Some(9), Some(8)),
            row(3, Some(9), None),
        ];
        let expected = "| family | n 1 to 3 | 9.0 us at 2 | 8.0 us |";
        assert_eq!(summary(&family, &rows).as_deref(), Some(expected));
        let rows = [row(1, Some(5), None), row(4, None, None)];
        let expected = "| family | n 1 to 4 | > 2 s at 4 | gives up from 1 |";
        assert_eq!(summary(&family, &rows).as_deref(), Some(expected));
        assert_eq!(summary(&family, &[]), None);
    }

    #[test]
    fn a_text_has_its_time_for_a_byte() {
        let family = families::growing("text", "bytes", &[], |_| unreachable!());
        let text = row(1024, Some(2), Some(4)).text(&family);
        let expected = "| text | 1024 | possible | 2.0 us | 2.0 ns | 4.0 us | 0.50 |";
        assert_eq!(text, expected);
        let text = row(2048, None, Some(4)).text(&family);
        let expected = "| text | 2048 | possible | > 2 s |  | 4.0 us |  |";
        assert_eq!(text, expected);
    }

    #[test]
    fn open_is_what_takes_over_10_ms() {
        assert!(!row(1, Some(10_000), None).is_open());
        assert!(row(1, Some(10_001), None).is_open());
        assert!(row(1, None, None).is_open());
    }
}
