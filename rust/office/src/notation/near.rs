//! The name that was likely meant.

/// The most bytes of a name that others are held against.
const LONGEST: usize = 100;

/// The nearest of the known names, if it is at most two slips away and not another word altogether.
pub fn nearest<'a>(name: &str, known: impl Iterator<Item = &'a str>) -> Option<&'a str> {
    let most = 2.min(name.chars().count() / 2);
    let near =
        known.filter(|other| name.len().max(other.len()) <= LONGEST).map(|other| (slips(name, other), other));
    near.filter(|(slips, _)| *slips <= most).min().map(|(_, other)| other)
}

/// How many characters must be put in, taken out or changed.
fn slips(one: &str, other: &str) -> usize {
    let other: Vec<char> = other.chars().collect();
    let mut row: Vec<usize> = (0..=other.len()).collect();
    for (k, here) in one.chars().enumerate() {
        let mut before = row[0];
        row[0] = k + 1;
        for (j, there) in other.iter().enumerate() {
            let changed = before + usize::from(here != *there);
            before = row[j + 1];
            row[j + 1] = changed.min(row[j] + 1).min(before + 1);
        }
    }
    row[other.len()]
}

#[cfg(test)]
mod tests {
    use super::*;

    #[test]
    fn slips_are_counted() {
        assert_eq!(slips("cut", "cut"), 0);
        assert_eq!(slips("rouging", "roughing"), 1);
        assert_eq!(slips("", "abc"), 3);
        assert_eq!(slips("feler", "wood"), 5);
    }

    #[test]
    fn only_near_names_are_offered() {
        let known = || ["roughing", "wood", "spindle"].into_iter();
        assert_eq!(nearest("rouging", known()), Some("roughing"));
        assert_eq!(nearest("wod", known()), Some("wood"));
        assert_eq!(nearest("x", known()), None);
        assert_eq!(nearest("polishing", known()), None);
        // long names are not held against each other, which would take long
        let [one, other] = ["w".repeat(500_000), "v".repeat(500_000)];
        assert_eq!(nearest(&one, [other.as_str(), &one].into_iter()), None);
    }
}
