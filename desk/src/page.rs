//! A run as one self-contained page that plays it step by step.
//!
//! The page has its style, its script and its data in it, and nothing from elsewhere. A reader without scripts gets a table of the steps.

mod data;

use crate::device::Device;
use crate::layout::Layout;
use crate::program::Program;
use crate::replay::rows::{became, rows, Row};
use crate::replay::Replay;
use crate::svg::escaped;
use abwakiris::Job;

const TEMPLATE: &str = include_str!("page/page.html");
const STYLE: &str = include_str!("page/page.css");
const SCRIPT: &str = include_str!("page/page.js");

/// The page of a run of these programs, each with the name of its file.
pub fn page(device: &Device, layout: &Layout, programs: [(&str, &Program); 2], replay: &Replay) -> String {
    filled(TEMPLATE, |name| match name {
        "title" => escaped(&format!("Run of {} and {}", programs[0].0, programs[1].0)),
        "style" => STYLE.to_string(),
        "table" => table(programs, replay),
        "data" => data::data(device, layout, programs, replay).to_string(),
        "script" => SCRIPT.to_string(),
        _ => String::new(),
    })
}

/// The template with what its marks, as `{{title}}`, stand for. What is put in is not looked at again.
fn filled(template: &str, piece: impl Fn(&str) -> String) -> String {
    let mut parts = template.split("{{");
    let mut page = parts.next().unwrap_or_default().to_string();
    for part in parts {
        let (name, rest) = part.split_once("}}").unwrap_or(("", part));
        page.push_str(&piece(name));
        page.push_str(rest);
    }
    page
}

/// The steps for a reader without scripts: what became of each job, and the rows that `abwakiris run` prints.
fn table(programs: [(&str, &Program); 2], replay: &Replay) -> String {
    let mut page = String::new();
    for (&job, (name, program)) in Job::ALL.iter().zip(programs) {
        page.push_str(&format!("<p>{}</p>\n", escaped(&format!("{job}, {name}: {}", became(program, replay, job).join("; ")))));
    }
    page.push_str("<table>\n<thead><tr>");
    for head in ["step", "job", "outcome", "line", "statement", "what happened"] {
        page.push_str(&format!("<th>{head}</th>"));
    }
    page.push_str("</tr></thead>\n<tbody>\n");
    for row in rows(programs.map(|(_, program)| program), replay) {
        page.push_str(&table_row(&row));
    }
    page.push_str("</tbody>\n</table>\n");
    page
}

fn table_row(row: &Row) -> String {
    let outcome = row.outcome.map_or(String::new(), |outcome| u8::from(outcome).to_string());
    let (line, text) = row.at.as_ref().map_or_else(Default::default, |(line, text)| (line.to_string(), text.clone()));
    let cells = [row.numbers(), row.job.number().to_string(), outcome, line, text, row.happened.clone()];
    let cells: String = cells.iter().map(|cell| format!("<td>{}</td>", escaped(cell))).collect();
    format!("<tr>{cells}</tr>\n")
}
