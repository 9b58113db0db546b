//! The name that somebody may have meant.

/// The name nearest to a word, where one is near: at most a third of its letters, and at least
/// one, are added, left out, changed or swapped with their neighbour.
///
/// ```
/// use heat_battery::text::nearest;
///
/// let names = ["lower", "upper", "losses"];
/// assert_eq!(nearest("loses", names), Some("losses"));
/// assert_eq!(nearest("upepr", names), Some("upper"));
/// assert_eq!(nearest("volume", names), None);
/// ```
pub fn nearest<'a>(word: &str, names: impl IntoIterator<Item = &'a str>) -> Option<&'a str> {
    let apart = names.into_iter().map(|name| (distance(word, name), name));
    let near = apart.filter(|(distance, name)| *distance <= (name.chars().count() / 3).max(1));
    near.min_by_key(|(distance, _)| *distance).map(|(_, name)| name)
}

/// The end of a message that asks whether the nearest name was meant; empty where none is near.
///
/// ```
/// use heat_battery::text::hint;
///
/// assert_eq!(hint("plt", ["plot", "show"]), "; did you mean plot?");
/// assert_eq!(hint("bake", ["plot", "show"]), "");
/// ```
pub fn hint<'a>(word: &str, names: impl IntoIterator<Item = &'a str>) -> String {
    nearest(word, names).map_or(String::new(), |name| format!("; did you mean {name}?"))
}

/// Longer words are near to no name.
const MOST_LETTERS: usize = 40;

/// Letters to add, leave out, change or swap with their neighbour, from one word to another.
fn distance(one: &str, other: &str) -> usize {
    let one: Vec<char> = one.chars().take(MOST_LETTERS + 1).collect();
    let other: Vec<char> = other.chars().collect();
    if one.len() > MOST_LETTERS {
        return usize::MAX;
    }
    let mut rows = vec![vec![0; other.len() + 1]; one.len() + 1];
    for i in 0..=one.len() {
        for j in 0..=other.len() {
            rows[i][j] = match (i, j) {
                (0, _) => j,
                (_, 0) => i,
                _ => {
                    let change = usize::from(one[i - 1] != other[j - 1]);
                    let swap =
                        i > 1 && j > 1 && one[i - 1] == other[j - 2] && one[i - 2] == other[j - 1];
                    let swapped = if swap { rows[i - 2][j - 2] + 1 } else { usize::MAX };
                    let single = rows[i - 1][j].min(rows[i][j - 1]) + 1;
                    single.min(rows[i - 1][j - 1] + change).min(swapped)
                }
            };
        }
    }
    rows[one.len()][other.len()]
}
