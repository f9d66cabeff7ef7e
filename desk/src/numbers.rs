//! Numbers in words: so many of something, and lists of numbers.

/// A number with a comma before each three digits.
pub fn grouped(number: u128) -> String {
    let digits = number.to_string();
    let mut text = String::new();
    for (i, digit) in digits.chars().enumerate() {
        if i > 0 && (digits.len() - i) % 3 == 0 {
            text.push(',');
        }
        text.push(digit);
    }
    text
}

/// So many of something: `1 step`, `4 steps`.
pub fn many(count: usize, what: &str) -> String {
    format!("{} {what}{}", grouped(count as u128), if count == 1 { "" } else { "s" })
}

/// Numbers in their order, with this between them.
pub fn joined(numbers: &[usize], between: &str) -> String {
    numbers.iter().map(usize::to_string).collect::<Vec<String>>().join(between)
}

/// Numbers with a word before the last: `0, 8 or 14`.
pub fn listed(numbers: &[usize], word: &str) -> String {
    match numbers {
        [others @ .., last] if !others.is_empty() => format!("{} {word} {last}", joined(others, ", ")),
        _ => joined(numbers, ""),
    }
}

/// Numbers with `and` before the last: `0, 8 and 14`. Of many the first, and how many more there are.
pub fn first_of(numbers: &[usize]) -> String {
    const MOST: usize = 12;
    match numbers.get(..MOST) {
        Some(first) if numbers.len() > MOST => format!("{} and {} more", joined(first, ", "), numbers.len() - MOST),
        _ => listed(numbers, "and"),
    }
}

#[cfg(test)]
mod tests {
    use super::*;

    #[test]
    fn in_words() {
        assert_eq!([many(0, "step"), many(1, "step"), many(2, "step")], ["0 steps", "1 step", "2 steps"]);
        assert_eq!([listed(&[], "or"), listed(&[7], "or"), listed(&[7, 8], "or"), listed(&[0, 8, 14], "or")], ["", "7", "7 or 8", "0, 8 or 14"]);
        let numbers: Vec<usize> = (0..14).collect();
        assert_eq!(first_of(&numbers[..12]), "0, 1, 2, 3, 4, 5, 6, 7, 8, 9, 10 and 11");
        assert_eq!(first_of(&numbers), "0, 1, 2, 3, 4, 5, 6, 7, 8, 9, 10, 11 and 2 more");
        assert_eq!(joined(&numbers[..3], "-"), "0-1-2");
    }
}
