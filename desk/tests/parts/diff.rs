//! Two texts that differ, as few lines.

/// So many lines that are alike are shown before and after, and so many of each text between.
const AROUND: usize = 2;
const MOST: usize = 24;

/// The lines in which the texts differ, `-` those of the first and `+` those of the second, with what is alike around them.
pub fn diff(stored: &str, found: &str) -> String {
    let (stored, found): (Vec<&str>, Vec<&str>) = (stored.split('\n').collect(), found.split('\n').collect());
    let before = stored.iter().zip(&found).take_while(|(a, b)| a == b).count();
    let least = stored.len().min(found.len()) - before;
    let after = stored.iter().rev().zip(found.iter().rev()).take(least).take_while(|(a, b)| a == b).count();
    let mut lines = vec![format!("    line {}:", before + 1)];
    lines.extend(marked(' ', &stored[before.saturating_sub(AROUND)..before]));
    lines.extend(marked('-', &stored[before..stored.len() - after]));
    lines.extend(marked('+', &found[before..found.len() - after]));
    let end = found.len() - after;
    lines.extend(marked(' ', &found[end..(end + AROUND).min(found.len())]));
    lines.join("\n")
}

fn marked(mark: char, lines: &[&str]) -> Vec<String> {
    let mut marked: Vec<String> = lines.iter().take(MOST).map(|line| format!("    {mark} {line}")).collect();
    if lines.len() > MOST {
        marked.push(format!("    {mark} .. and {} lines more", lines.len() - MOST));
    }
    marked
}
