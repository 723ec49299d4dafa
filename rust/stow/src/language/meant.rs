//! What was meant by a word that is none: the likeliest of those that could stand there.

/// How many letters must be changed, put in or left out, or changed places with their neighbour.
fn distance(a: &str, b: &str) -> usize {
    let (a, b): (Vec<char>, Vec<char>) = (a.chars().collect(), b.chars().collect());
    let (mut two_before, mut before) = (vec![0; b.len() + 1], (0..=b.len()).collect::<Vec<_>>());
    for i in 1..=a.len() {
        let mut row = vec![i; b.len() + 1];
        for j in 1..=b.len() {
            let changed = before[j - 1] + (a[i - 1] != b[j - 1]) as usize;
            row[j] = changed.min(before[j] + 1).min(row[j - 1] + 1);
            if i > 1 && j > 1 && a[i - 1] == b[j - 2] && a[i - 2] == b[j - 1] {
                row[j] = row[j].min(two_before[j - 2] + 1);
            }
        }
        two_before = std::mem::replace(&mut before, row);
    }
    before[b.len()]
}

/// The nearest of several words, if it is near: one letter wrong of up to four, else two. Case does not count.
pub fn nearest<'a>(word: &str, known: impl IntoIterator<Item = &'a str>) -> Option<&'a str> {
    let lower = word.to_lowercase();
    let letters = lower.chars().count();
    if letters > 40 {
        return None;
    }
    let allowed = if letters <= 4 { 1 } else { 2 };
    let far = |known: &&str| distance(&lower, &known.to_lowercase());
    known.into_iter().filter(|known| known.len() <= 80).min_by_key(far).filter(|known| far(known) <= allowed)
}

/// `did you mean 'take'?`
pub fn did_you_mean<'a>(word: &str, known: impl IntoIterator<Item = &'a str>) -> Option<String> {
    nearest(word, known).map(|known| format!("did you mean '{known}'?"))
}

#[cfg(test)]
mod tests {
    use super::*;

    #[test]
    fn near_and_far() {
        let known = ["take", "drop", "end", "shed"];
        for (word, wanted) in [
            ("tkae", Some("take")),
            ("Take", Some("take")),
            ("dropp", Some("drop")),
            ("shet", Some("shed")),
            ("yard", None),
            ("", None),
        ] {
            assert_eq!(nearest(word, known), wanted, "{word}");
        }
    }
}
