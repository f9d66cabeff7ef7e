//! What every picture must have, whoever draws it.

use crate::faults::Faults;
use crate::question::Question;

/// A device in the terminal: the number of each location.
pub fn of_terminal(question: &Question, out: &str, faults: &mut Faults) {
    let device = question.files.iter().find(|(name, _)| *name == "device").map_or(&[][..], |(_, bytes)| bytes);
    let numbers: Vec<&str> = out.split(|letter: char| !letter.is_ascii_digit()).collect();
    let missing = (0..abwakiris::locations(device).unwrap_or(0)).find(|location| !numbers.contains(&location.to_string().as_str()));
    faults.unless(missing.is_none(), || format!("location {missing:?} is not in the picture"));
}

/// An SVG file: one element with all others in it, each closed in turn, and nothing from elsewhere.
pub fn of_svg(text: &str, faults: &mut Faults) {
    let mut open: Vec<&str> = vec![];
    let mut roots = 0;
    for tag in text.split('<').skip(1).filter_map(|rest| rest.split('>').next()) {
        let name = tag.trim_start_matches('/').split(|letter: char| letter.is_whitespace() || letter == '/').next().unwrap_or("");
        if tag.starts_with('/') {
            let closed = open.pop();
            faults.unless(closed == Some(name), || format!("<{tag}> closes {closed:?}"));
        } else if !tag.starts_with('?') && !tag.starts_with('!') {
            roots += usize::from(open.is_empty());
            open.extend((!tag.ends_with('/')).then_some(name));
        }
    }
    faults.unless(open.is_empty() && roots == 1, || "the elements of the picture are not closed".to_string());
    faults.unless(text.contains("<svg ") && text.contains("http://www.w3.org/2000/svg"), || "it is no SVG".to_string());
    faults.unless(text.matches("http").count() == text.matches("http://www.w3.org/").count(), || "it names another place".to_string());
    faults.unless(!text.contains("NaN") && !text.contains("inf"), || "a number in it is none".to_string());
}
