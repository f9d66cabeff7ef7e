//! The known word that is nearest to one that is not known.

/// The nearest of these words, where one is near: one of the two begins the other, or two edits are enough. Leading dashes do not count.
pub fn nearest<'a>(word: &str, known: impl Iterator<Item = &'a str>) -> Option<&'a str> {
    let word = word.trim_start_matches('-');
    let far = |known: &&str| edits(word, known.trim_start_matches('-'));
    let near = |known: &&str| {
        let name = known.trim_start_matches('-');
        name.starts_with(word) || word.starts_with(name) || (far(known) <= 2 && far(known) < word.chars().count())
    };
    if word.is_empty() {
        return None;
    }
    known.filter(near).min_by_key(far)
}

/// The least number of letters to add, take away, change or swap with their neighbour that makes one word of the other.
fn edits(a: &str, b: &str) -> usize {
    let (a, b): (Vec<char>, Vec<char>) = (a.chars().collect(), b.chars().collect());
    let mut before: Vec<usize> = vec![];
    let mut last: Vec<usize> = (0..=b.len()).collect();
    for (i, letter) in a.iter().enumerate() {
        let mut row = vec![i + 1];
        for (j, other) in b.iter().enumerate() {
            let mut least = (last[j] + usize::from(letter != other)).min(last[j + 1] + 1).min(row[j] + 1);
            if i > 0 && j > 0 && a[i - 1] == *other && b[j - 1] == *letter {
                least = least.min(before[j - 1] + 1);
            }
            row.push(least);
        }
        before = std::mem::replace(&mut last, row);
    }
    last[b.len()]
}

#[cfg(test)]
mod tests {
    use super::*;

    #[test]
    fn words() {
        let of = |word| nearest(word, ["check", "why", "list", "unlist", "refusal"].into_iter());
        assert_eq!(of("chek"), Some("check"));
        assert_eq!(of("lsit"), Some("list"));
        assert_eq!(of("listing"), Some("list"));
        assert_eq!(of("ref"), Some("refusal"));
        assert_eq!(of("xy"), None);
        assert_eq!(of(""), None);
        let of = |word| nearest(word, ["--job", "--json", "-o"].into_iter());
        assert_eq!(of("--jobs"), Some("--job"));
        assert_eq!(of("-job"), Some("--job"));
        assert_eq!(of("--jsno"), Some("--json"));
        assert_eq!(of("--output"), Some("-o"));
        assert_eq!(of("--wide"), None);
        assert_eq!(of("---"), None);
    }

    #[test]
    fn counted() {
        assert_eq!(edits("", "abc"), 3);
        assert_eq!(edits("abc", "acb"), 1);
        assert_eq!(edits("abc", "xbcd"), 2);
        assert_eq!(edits("same", "same"), 0);
    }
}
