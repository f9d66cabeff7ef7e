//! The page that plays a run, without a browser: its data is read back, played, and held against the library step by step.

#[path = "parts/read_json.rs"]
mod read_json;
#[path = "parts/repository.rs"]
mod repository;

use abwakiris::{Job, Records, Told};
use abwakiris_desk::json::Json;
use abwakiris_desk::layout::Layout;
use abwakiris_desk::page::page;
use abwakiris_desk::program::Program;
use abwakiris_desk::replay::of_files;
use repository::files::*;
use repository::generator::{Case, Random};
use repository::{generator, library, reference};
use std::collections::BTreeMap;
use std::path::{Path, PathBuf};
use std::process::Command;

/// What the tests ask of a value.
trait Value {
    /// A member; null where it is left out.
    fn of(&self, name: &str) -> &Json;
    fn has(&self, name: &str) -> bool;
    /// The values of a list; none where it is left out.
    fn list(&self) -> &[Json];
    /// A number; none for null.
    fn maybe(&self) -> Option<usize>;
    fn number(&self) -> usize;
    fn numbers(&self) -> Vec<usize>;
    fn text(&self) -> &str;
}

impl Value for Json {
    fn of(&self, name: &str) -> &Json {
        assert!(matches!(self, Json::Object(_)), "{name} of {self}");
        read_json::member(self, name)
    }

    fn has(&self, name: &str) -> bool {
        matches!(self, Json::Object(members) if members.iter().any(|(own, _)| own == name))
    }

    fn list(&self) -> &[Json] {
        match self {
            Json::List(values) => values,
            Json::Null => &[],
            other => panic!("no list: {other}"),
        }
    }

    fn maybe(&self) -> Option<usize> {
        match self {
            Json::Number(number) => Some(usize::try_from(*number).unwrap()),
            Json::Null => None,
            other => panic!("no number: {other}"),
        }
    }

    fn number(&self) -> usize {
        self.maybe().expect("a number")
    }

    fn numbers(&self) -> Vec<usize> {
        self.list().iter().map(Json::number).collect()
    }

    fn text(&self) -> &str {
        assert!(matches!(self, Json::Text(_)), "no text: {self}");
        read_json::text(self)
    }
}

// Runs

struct Run {
    device: Vec<u8>,
    programs: [Vec<u8>; 2],
    schedule: Vec<u8>,
}

impl Run {
    /// The page; none where the library refuses the run.
    fn page(&self, names: [&str; 2]) -> Option<String> {
        let (device, programs, replay) = of_files(&self.device, [&self.programs[0], &self.programs[1]], &self.schedule).ok()?;
        let layout = Layout::of(&device, None);
        Some(page(&device, &layout, [(names[0], &programs[0]), (names[1], &programs[1])], &replay))
    }

    /// The library's records and map after so many steps.
    fn after(&self, steps: usize) -> (Vec<abwakiris::Record>, Vec<usize>) {
        let (mut records, mut map) = (vec![0; 4 * steps], vec![0; 256]);
        abwakiris::run(&self.device, &self.programs[0], &self.programs[1], &self.schedule[..steps], &mut records, &mut map).unwrap();
        map.truncate(abwakiris::locations(&self.device).unwrap());
        (Records::new(&records).collect(), map.into_iter().map(usize::from).collect())
    }
}

/// The data of a page.
fn data(page: &str) -> Json {
    let begins = "<script type=\"application/json\" id=\"run\">";
    let at = page.find(begins).unwrap() + begins.len();
    read_json::read(&page[at..at + page[at..].find("</script").unwrap()]).unwrap()
}

/// Three rows of five locations, the last column job 2's. Job 1 has a controlled X over the whole row; then, with outcome 1, it puts an ancilla down in the
/// one corridor before it merges. Job 2 loops over its column until a measurement gives 0, and ends with a statement that is stuck.
fn story() -> Run {
    let mut edges: Vec<Edge> = (0..15).filter(|l| l % 5 < 4).map(|l| (l, l + 1)).chain((0..10).map(|l| (l, l + 5))).collect();
    edges.sort_unstable();
    let owners: Vec<u8> = (0..15).map(|l| if l % 5 == 4 { 2 } else { 1 }).collect();
    let body = [init(2, 2), merge(3, 2, 1), when(3, &[gate(0)], &[]), merge(4, 0, 2), measure(5, 2), when(5, &[gate(0)], &[]), free(2)];
    let main = [
        init(0, 5),
        init(1, 8),
        init(2, 2),
        init(3, 12),
        call(0, &[5, 8, 6], &[0, 1]),
        measure(6, 0),
        when(6, &[init(7, 7), merge(8, 0, 1), free(7)], &[merge(8, 0, 1), init(7, 7), free(7)]),
        free(0),
    ];
    let looped = [merge(4, 0, 1), measure(5, 0), set(3, 5)];
    let two = only(&[init(0, 4), init(1, 14), boolean(2, 1), refer(3, 2), repeat(3, &looped), init(6, 4), free(0)]);
    // job 1 measures at its steps 7, 10, 11 and 15, job 2 at its steps 6 and 7, 10 and 11
    let (mut ones, mut twos) = ([0, 0, 0, 0, 0, 0, 1, 0, 0, 0, 0, 0, 0, 0, 1].iter(), [0, 0, 0, 0, 0, 1, 1].iter());
    let mut schedule = vec![];
    for i in 0..45 {
        let (job, outcomes) = if i % 3 == 1 { (0x20, &mut twos) } else { (0x10, &mut ones) };
        schedule.push(job + outcomes.next().unwrap_or(&0));
    }
    Run { device: owned(&owners, &edges), programs: [calling(&[function(3, 2, &body)], &main), two], schedule }
}

/// A page's data as it is played.
struct Played<'a> {
    data: &'a Json,
    /// The job at each location, and the slot.
    held: Vec<(usize, Option<usize>)>,
    jobs: [Shown; 2],
}

#[derive(Clone, Default)]
struct Shown {
    next: Option<usize>,
    returns: bool,
    slots: BTreeMap<usize, String>,
    call: Option<usize>,
}

impl<'a> Played<'a> {
    fn new(data: &'a Json) -> Played<'a> {
        let shown = |job: &Json| Shown { next: job.of("next").maybe(), returns: job.has("next_returns"), ..Shown::default() };
        let jobs = data.of("jobs").list();
        Played { data, held: vec![(0, None); data.of("map").list().len()], jobs: [shown(&jobs[0]), shown(&jobs[1])] }
    }

    fn map(&self) -> Vec<usize> {
        self.held.iter().map(|(job, _)| *job).collect()
    }

    fn step(&mut self, step: &Json) {
        for change in step.of("changes").list() {
            let change = change.list();
            let held = (change[1].number(), change[2].maybe());
            assert_ne!(self.held[change[0].number()], held, "no change");
            self.held[change[0].number()] = held;
        }
        let job = &mut self.jobs[step.of("job").number() - 1];
        for change in step.of("slots").list() {
            match &change.list()[1] {
                Json::Null => job.slots.remove(&change.list()[0].number()),
                holds => job.slots.insert(change.list()[0].number(), holds.text().to_string()),
            };
        }
        if step.has("next") {
            job.next = step.of("next").maybe();
            job.returns = step.has("next_returns");
        }
        if step.has("call") {
            job.call = step.of("call").maybe();
        }
    }

    /// Every qubit in a slot of the body that is being run is on the device, in that slot.
    fn slots_are_held(&self) {
        for (job, shown) in self.jobs.iter().enumerate() {
            for (slot, location) in shown.slots.iter().filter_map(|(slot, holds)| Some((*slot, holds.strip_prefix("at ")?))) {
                assert_eq!(self.held[location.parse::<usize>().unwrap()], (job + 1, Some(slot)));
            }
        }
    }

    fn call(&self, job: usize) -> Option<&Json> {
        self.jobs[job - 1].call.map(|call| &self.data.of("calls").list()[call])
    }
}

/// Plays the data of a run's page and holds all of it against the library; its maps after every step, or after some of many.
fn played(run: &Run) -> Option<Json> {
    let data = data(&run.page(["one", "two"])?);
    let (records, map) = run.after(run.schedule.len());
    let programs = [0, 1].map(|i| Program::read(&run.programs[i]).unwrap());
    assert_eq!(data.of("map").numbers(), map);
    for (job, program) in data.of("jobs").list().iter().zip(&run.programs) {
        let lines: Vec<&str> = job.of("lines").list().iter().map(Json::text).collect();
        assert_eq!(lines.join("\n") + "\n", abwakiris::write_listing(program).unwrap());
    }
    let steps = data.of("steps").list();
    assert_eq!(steps.len(), run.schedule.len());
    let apart = 1 + steps.len() / 40;
    let mut play = Played::new(&data);
    let mut moved = [0, 0];
    for (i, (step, record)) in steps.iter().zip(&records).enumerate() {
        let job = step.of("job").number();
        assert_eq!(job, usize::from(run.schedule[i] / 16));
        let before = (play.map(), play.jobs[job - 1].clone(), play.call(job).cloned());
        play.step(step);
        is_told(step, record, run.schedule[i] % 2);
        is_at(step, record, &programs[job - 1], &before.1);
        is_routed(&run.device, &data, step, &before.0);
        is_called(&data, step, before.2.as_ref(), play.call(job));
        play.slots_are_held();
        moved[job - 1] += usize::from(record.told == Told::Moved);
        if i % apart == 0 {
            assert_eq!(play.map(), run.after(i + 1).1, "after step {}", i + 1);
        }
    }
    assert_eq!(play.map(), map);
    assert_eq!(data.of("moved").numbers(), moved);
    Some(data)
}

/// What a step tells is what its record tells.
fn is_told(step: &Json, record: &abwakiris::Record, outcome: u8) {
    let (told, number) = match record.told {
        Told::Moved => ("moved", None),
        Told::Finished => ("finished", None),
        Told::Stuck(number) => ("stuck", Some(usize::from(number.number()))),
    };
    assert_eq!((step.of("told").text(), step.of("number").maybe()), (told, number));
    assert_eq!(step.of("offset").maybe(), record.offset.map(usize::from));
    assert_eq!(step.of("edges").maybe().unwrap_or(0), usize::from(record.edges));
    assert!(step.of("outcome").maybe().map_or(true, |bound| bound == usize::from(outcome)));
    if record.told != Told::Moved {
        assert!(["changes", "slots", "next", "call", "outcome", "guard", "route", "at"].iter().all(|name| !step.has(name)));
    }
}

/// The line of a step is that of its statement, which the page has announced before as the job's next; a measurement has its outcome.
fn is_at(step: &Json, record: &abwakiris::Record, program: &Program, before: &Shown) {
    assert_eq!((step.of("line").maybe(), step.has("returns")), (before.next, before.returns));
    let line = step.of("line").maybe().map(|line| &program.listing.lines[line - 1]);
    assert_eq!(line.map(|line| line.at), record.offset.map(usize::from));
    let kind = line.map_or("", |line| line.text.trim_start().split(' ').next().unwrap());
    let moved = record.told == Told::Moved && !step.has("returns");
    assert_eq!(step.has("outcome"), moved && matches!(kind, "measure" | "merge"));
    assert_eq!(step.has("guard"), moved && matches!(kind, "if" | "while"));
    assert_eq!(step.has("route"), moved && kind == "merge");
    assert_eq!(step.has("at"), moved && matches!(kind, "gate" | "measure"));
}

/// A route is the library's, over the map before the step.
fn is_routed(device: &[u8], data: &Json, step: &Json, map: &[usize]) {
    if let Some(route) = step.of("route").maybe() {
        let route = data.of("routes").list()[route].numbers();
        let (first, last) = (route[0] as u64, route[route.len() - 1] as u64);
        let occupancy: Vec<u8> = map.iter().map(|&job| job as u8).collect();
        let mut buffer = [0; 256];
        let length = abwakiris::route(device, Job::ALL[step.of("job").number() - 1], &occupancy, first, last, &mut buffer).unwrap();
        assert_eq!(route, buffer[..length].iter().map(|&location| usize::from(location)).collect::<Vec<_>>());
        assert_eq!(route.len() - 1, step.of("edges").number());
    }
}

/// A call opens at its own line, with as many locations as its function has; a return closes it.
fn is_called(data: &Json, step: &Json, before: Option<&Json>, after: Option<&Json>) {
    if !step.has("call") {
        assert_eq!(before, after);
    } else if step.has("returns") {
        let left = before.unwrap();
        assert_eq!(left.of("line"), step.of("line"));
        assert_eq!(left.of("from").maybe().map(|from| &data.of("calls").list()[from]), after);
    } else {
        let call = after.unwrap();
        assert_eq!((call.of("job"), call.of("line")), (step.of("job"), step.of("line")));
        assert_eq!(call.of("from").maybe().map(|from| &data.of("calls").list()[from]), before);
        let lines = data.of("jobs").list()[step.of("job").number() - 1].of("lines").list();
        let header = format!("function {} locations {} ", call.of("function").number(), call.of("locations").list().len());
        assert!(lines.iter().any(|line| line.text().starts_with(&header)));
    }
}

// The tests

#[test]
fn story_is_played() {
    let data = played(&story()).unwrap();
    let jobs = data.of("jobs").list();
    let [one, two] = [jobs[0].of("stuck"), jobs[1].of("stuck")];
    assert_eq!((one.of("number").number(), one.of("words").text(), one.of("about").numbers()), (21, "no path", vec![5, 8]));
    assert_eq!(one.of("reached").numbers(), [0, 1, 6, 10, 11]);
    assert_eq!(jobs[0].of("lines").list()[one.of("line").number() - 1].text().trim(), "merge 8 X 0 X 1");
    assert_eq!((two.of("number").number(), two.of("found").text()), (14, "location 4 is occupied by the qubit in slot 0"));
    let routes: Vec<Vec<usize>> = data.of("routes").list().iter().map(Json::numbers).collect();
    assert_eq!(routes, [vec![6, 7, 8], vec![5, 6], vec![4, 9, 14]]);
    let call = &data.of("calls").list()[0];
    assert_eq!((call.of("function").number(), call.of("locations").numbers()), (0, vec![5, 8, 6]));
}

#[test]
fn generated_runs_are_played() {
    let mut pages = 0;
    for index in 0..600 {
        if let Case::Run { device, one, two, schedule, .. } = generator::case(&mut Random::new(5, index)) {
            pages += usize::from(played(&Run { device, programs: [one, two], schedule }).is_some());
        }
    }
    assert!(pages > 100, "{pages}");
}

#[test]
fn no_steps() {
    let run = Run { schedule: vec![], ..story() };
    let data = played(&run).unwrap();
    assert_eq!(data.of("steps"), &Json::List(vec![]));
    assert!(data.of("map").numbers().iter().all(|&job| job == 0));
}

#[test]
fn longest_run_stays_small() {
    // a loop of merges between the ends of 256 locations in a row
    let main = only(&[init(0, 0), init(1, 255), boolean(2, 1), refer(3, 2), repeat(3, &[merge(4, 0, 1), gate(1)])]);
    let run = Run { device: line(256), programs: [main, only(&[])], schedule: vec![0x11; 4096] };
    let page = run.page(["one", "two"]).unwrap();
    assert!(page.len() < 3 << 20, "{} bytes", page.len());
    assert!(data(&page).of("routes").list().len() == 1);
}

#[test]
fn nothing_from_elsewhere() {
    let page = story().page(["one", "two"]).unwrap();
    for word in ["http:", "https:", "src=", "url(", "@import", "<link", "<img", "<iframe", "fetch(", "XMLHttpRequest"] {
        assert!(!page.contains(word), "{word}");
    }
    assert!(page.contains("default-src 'none'"));
    assert!(page.is_ascii(), "a letter that needs an encoding");
    assert!(!page.contains("{{"), "a mark of the template is left");
}

#[test]
fn names_cannot_break_out() {
    let name = "</script><script>alert(\"1\")</script><!-- '{{script}}' & \u{e9}";
    let page = story().page([name, "</title></noscript><b>"]).unwrap();
    let plain = story().page(["one", "two"]).unwrap();
    for tag in ["<script", "</script", "</title", "<noscript", "</noscript", "<!--", "<b>", "alert(\"1\")"] {
        assert_eq!(page.matches(tag).count(), plain.matches(tag).count(), "{tag}");
    }
    assert_eq!(data(&page).of("jobs").list()[0].of("name").text(), name);
    let escaped = "&lt;/script&gt;&lt;script&gt;alert(&quot;1&quot;)&lt;/script&gt;&lt;!-- &#39;{{script}}&#39; &amp; \u{e9}";
    assert!(page.contains(&format!("<title>Run of {escaped} and &lt;/title&gt;&lt;/noscript&gt;&lt;b&gt;</title>")));
}

#[test]
fn table_without_scripts() {
    let run = story();
    let page = run.page(["one", "two"]).unwrap();
    let table = &page[page.find("<noscript>").unwrap()..page.find("</noscript>").unwrap()];
    assert!(table.contains("<tr><td>1</td><td>1</td><td></td><td>15</td><td>init 0 5</td><td>moved</td></tr>"));
    assert!(table.contains("<td>1</td><td>4</td><td>merge 3 X 2 X 1</td><td>moved, 2 edges: 6-7-8</td></tr>"));
    assert!(table.contains("<tr><td>27 to 28</td><td>1</td><td></td><td>23</td><td>merge 8 X 0 X 1</td><td>stuck 21: no path</td></tr>"));
    assert!(table.contains("<p>job 1, one: moved 17 steps, stuck 21 from step 27 on: no path; line 23, merge 8 X 0 X 1: slot 0 is at"));
}

/// The script finds every element that it asks for, and the help names every mark of a line.
#[test]
fn script_and_template_agree() {
    let (template, script) = (include_str!("../src/page/page.html"), include_str!("../src/page/page.js"));
    for asked in script.split("byId('").skip(1) {
        let id = &asked[..asked.find('\'').unwrap()];
        assert!(template.contains(&format!(" id=\"{id}\"")), "{id}");
    }
    let clicks = &script[script.find("const clicks").unwrap()..];
    for entry in clicks[clicks.find('{').unwrap() + 1..clicks.find('}').unwrap()].split(',') {
        let id = entry.split(':').next().unwrap().trim();
        assert!(template.contains(&format!(" id=\"{id}\"")), "{id}");
    }
    for mark in ["step", "next", "call", "return", "stuck"] {
        assert!(template.contains(&format!("pill {mark}\"")) && script.contains(&format!("'{mark}'")), "{mark}");
    }
}

/// Where node is installed it reads the script; without it nothing is asked.
#[test]
fn script_is_read_by_node() {
    let file = scratch("page.js");
    std::fs::write(&file, include_str!("../src/page/page.js")).unwrap();
    if let Ok(done) = Command::new("node").arg("--check").arg(&file).output() {
        assert!(done.status.success(), "{}", String::from_utf8_lossy(&done.stderr));
    }
}

fn scratch(name: &str) -> PathBuf {
    Path::new(env!("CARGO_TARGET_TMPDIR")).join(name)
}

#[test]
fn look_says_what_it_could_not_do() {
    let look = Path::new(env!("CARGO_MANIFEST_DIR")).join("look");
    let nothing = scratch("no-programs");
    std::fs::create_dir_all(&nothing).unwrap();
    let page = scratch("look.html");
    std::fs::write(&page, story().page(["one", "two"]).unwrap()).unwrap();
    let (page, picture) = (page.to_str().unwrap(), scratch("look.png"));
    let picture = picture.to_str().unwrap();
    let status = |words: &[&str]| {
        let done = Command::new("/bin/bash").arg(&look).args(words).env("PATH", &nothing).output().unwrap();
        assert!(done.stdout.is_empty() && !done.stderr.is_empty());
        done.status.code()
    };
    if Path::new("/bin/bash").exists() {
        for words in [&[][..], &[page], &[page, picture, "x"], &[page, picture, "1", "wide"], &[page, picture, "1", "9x9", "more"], &["no-such-page", picture]]
        {
            assert_eq!(status(words), Some(2), "{words:?}");
        }
        assert_eq!(status(&[page, picture, "7"]), Some(3));
    }
}
