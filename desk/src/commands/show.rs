//! `abwakiris show`: the device drawn, or a run as a page that plays it.

use super::{common, Command};
use crate::args::{Asked, Takes};
use crate::device::Device;
use crate::explain::Given;
use crate::input::{self, Named};
use crate::json::Json;
use crate::layout::Layout;
use crate::numbers::many;
use crate::page::page;
use crate::picture::{Mark, Picture};
use crate::program::Program;
use crate::replay::{of_files, Replay};
use crate::said::{trouble, Said, Trouble};
use crate::{output, svg, terminal};
use abwakiris::{Job, Refusal};
use std::ffi::OsStr;
use std::path::Path;

pub const COMMAND: Command = Command {
    name: "show",
    usage: "DEVICE [FIRST [SECOND]]",
    about: "the device drawn, or a run as a page that plays it",
    help: "\
Without -o the picture is printed. -o FILE.svg writes it as SVG.

    show DEVICE                       the device, and whose each location is
    show DEVICE --job 1               the region of a job
    show DEVICE --occupied 3,4        with these locations occupied
    show DEVICE FIRST SECOND --run S  the device after a run of both programs under the schedule S
    show DEVICE FIRST SECOND --run S -o FILE.html
                                      a page that plays the run step by step, in any browser

FIRST is the program of job 1, SECOND that of job 2; none stands for a program that does nothing, and SECOND may be left out.
A device whose edges form a grid is drawn as that grid, any other so that neighbours stay near; --width N draws rows of N.",
    example: "samples/story-device -o story.svg",
    takes: (1, 3),
    options: &[Takes::Job, Takes::Occupied, Takes::Run, Takes::Width, Takes::Output],
    does,
};

/// What is written.
#[derive(Clone, Copy, PartialEq, Eq)]
enum Form {
    Terminal,
    Svg,
    Page,
}

/// The files of a run.
struct Files {
    programs: [Named; 2],
    schedule: Named,
}

/// What the library has taken.
struct Scene {
    device: Device,
    about: Option<Job>,
    run: Option<([Program; 2], Replay)>,
}

fn does(asked: &Asked) -> Result<Said, Trouble> {
    let (form, job_number) = (form(asked)?, asked.number(Takes::Job)?);
    let files = files(asked, form)?;
    let device = input::file(&asked.words[0])?;
    let mut given = Given { device: Some(&device), job_number, ..Given::default() };
    if let Some(files) = &files {
        given.programs = [Some(&files.programs[0]), Some(&files.programs[1])];
        given.schedule = Some(&files.schedule);
    }
    match Scene::read(job_number, &device, files.as_ref()) {
        Ok(scene) => scene.drawn(asked, form, &given),
        Err(refusal) => Ok(common::refused(asked, refusal, &given)),
    }
}

/// The form that the name after `-o` asks for.
fn form(asked: &Asked) -> Result<Form, Trouble> {
    let name = match asked.value(Takes::Output) {
        Some(name) if name != "-" => name,
        _ => return Ok(Form::Terminal),
    };
    let ending = Path::new(name).extension().map(|ending| ending.to_string_lossy().to_lowercase());
    match ending.as_deref() {
        Some("svg") => Ok(Form::Svg),
        Some("html") => Ok(Form::Page),
        _ => trouble(format!("-o takes a name that ends in .svg or .html, not `{}`", name.to_string_lossy())),
    }
}

/// The files of the run, where one is asked for.
fn files(asked: &Asked, form: Form) -> Result<Option<Files>, Trouble> {
    let none = OsStr::new("none");
    let program = |i: usize| common::job_program(asked.words.get(i).map_or(none, |word| word.as_os_str()));
    match (asked.value(Takes::Run), asked.words.get(1)) {
        (Some(_), None) => trouble("--run needs the program of job 1, or the word none, after the device"),
        (Some(_), _) if asked.value(Takes::Occupied).is_some() => {
            trouble("--occupied is for a device without a run: in a run the programs say what is occupied")
        }
        (Some(schedule), _) => Ok(Some(Files { programs: [program(1)?, program(2)?], schedule: input::schedule(schedule)? })),
        (None, Some(_)) => trouble("a program is drawn with a run: --run SCHEDULE says which"),
        (None, None) if form == Form::Page => trouble("a page plays a run: it needs the programs, and --run SCHEDULE"),
        (None, None) => Ok(None),
    }
}

impl Scene {
    /// Asks the library whether it takes all of this.
    fn read(job: Option<u64>, device: &Named, files: Option<&Files>) -> Result<Scene, Refusal> {
        let about = job.map(Job::try_from).transpose()?;
        if let Some(Files { programs: [first, second], schedule }) = files {
            let (device, programs, replay) = of_files(&device.bytes, [&first.bytes, &second.bytes], &schedule.bytes)?;
            return Ok(Scene { device, about, run: Some((programs, replay)) });
        }
        Ok(Scene { device: Device::read(&device.bytes)?, about, run: None })
    }

    /// Prints the picture, or writes it.
    fn drawn(&self, asked: &Asked, form: Form, given: &Given) -> Result<Said, Trouble> {
        let layout = common::layout(asked, &self.device)?;
        let picture = self.picture(asked, name(given.device))?;
        let text = match (form, &self.run) {
            (Form::Terminal, _) => terminal::drawn(&self.device, &layout, &picture),
            (Form::Page, Some(([first, second], replay))) => {
                page(&self.device, &layout, [(name(given.programs[0]), first), (name(given.programs[1]), second)], replay)
            }
            _ => svg::drawn(&self.device, &layout, &picture),
        };
        output::text(asked, text.as_bytes(), || self.machine(&layout, &picture))
    }

    /// The picture for machines: each location with its row, its column and who is there.
    fn machine(&self, layout: &Layout, picture: &Picture) -> Json {
        let location = |(location, mark): (usize, &Mark)| {
            let (row, column) = layout.cells[location];
            let head = Json::object([("location", location.into()), ("owner", self.device.owners[location].into())]);
            let held = if let Mark::Held(job, slot) = mark { (Some(job.number()), *slot) } else { (None, None) };
            head.with("row", row).with("column", column).with("occupied", held.0.is_some() || *mark == Mark::Occupied).with("job", held.0).with("slot", held.1)
        };
        let edges = Json::list(self.device.edges.iter().map(|&(a, b)| vec![a, b]));
        let head = Json::head(COMMAND.name, true).with("title", picture.title.as_str());
        head.with("locations", Json::list(picture.marks.iter().enumerate().map(location))).with("edges", edges)
    }

    /// The device as the run leaves it, or with what `--occupied` says.
    fn picture(&self, asked: &Asked, name: &str) -> Result<Picture, Trouble> {
        if let Some((_, replay)) = &self.run {
            let slots = replay.steps.last().map_or(&[][..], |step| &step.slots);
            return Ok(Picture::of(&self.device, self.about, after(name, replay)).with_map(&replay.map, slots));
        }
        let mut picture = Picture::of(&self.device, self.about, title(&self.device, self.about, name));
        for (mark, byte) in picture.marks.iter_mut().zip(common::occupied(asked, &self.device)?) {
            if byte != 0 {
                *mark = Mark::Occupied;
            }
        }
        Ok(picture)
    }
}

fn name(file: Option<&Named>) -> &str {
    file.map_or("", |named| &named.name)
}

/// What a picture of a device is of.
fn title(device: &Device, about: Option<Job>, name: &str) -> String {
    let of = |owner: u8| device.owners.iter().filter(|&&byte| byte == owner).count();
    let all = format!("{name}: {} and {}", many(device.locations(), "location"), many(device.edges.len(), "edge"));
    match about {
        Some(job) => format!("{all}; {} in the region of {job}", of(job.number())),
        None => format!("{all}; job 1 has {}, job 2 has {}, nobody {}", of(1), of(2), of(0)),
    }
}

/// What a picture after a run is of.
fn after(name: &str, replay: &Replay) -> String {
    let steps = many(replay.steps.len(), "step");
    format!("{name} after {steps}: job 1 moved {}, job 2 moved {}", replay.moved.first, replay.moved.second)
}
