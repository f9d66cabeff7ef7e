//! What a picture of a device shows, whoever draws it.

use crate::device::Device;
use abwakiris::Job;

/// What is drawn at a location.
#[derive(Clone, Copy, Debug, PartialEq, Eq)]
pub enum Mark {
    /// Nothing is there.
    Free,
    /// Free, and reached over free locations from the first end.
    Reached,
    /// The first end of a merge or of a route.
    First,
    /// The second end.
    Second,
    /// A qubit of this job, in this slot where it is known.
    Held(Job, Option<u8>),
    /// Occupied, by nobody who is known.
    Occupied,
    /// Not in the region that the picture is about.
    Outside,
}

/// A picture of a device.
#[derive(Clone, Debug)]
pub struct Picture {
    /// A line of words above it.
    pub title: String,
    /// The job whose region it is about; none for the whole device, where free locations show whose they are.
    pub about: Option<Job>,
    /// One for each location.
    pub marks: Vec<Mark>,
    /// The locations of a route in order, none for none.
    pub route: Vec<usize>,
}

/// How a location looks: its mark, seen with what the picture is about and with the route.
#[derive(Clone, Copy, Debug, PartialEq, Eq, PartialOrd, Ord)]
pub enum Look {
    First,
    Second,
    /// A qubit of this job, in a slot that is known or not.
    Held(Job, bool),
    Occupied,
    /// Free, and on the route.
    Route,
    Reached,
    Free,
    /// Free, where free locations show whose they are: 0 nobody, else that job.
    Of(u8),
    Outside,
}

/// How an edge looks.
#[derive(Clone, Copy, Debug, PartialEq, Eq)]
pub enum Way {
    /// In a region, and in the one that the picture is about.
    Open,
    /// In no region, or not in that one: no path goes along it.
    Closed,
    /// The route goes along it.
    Route,
}

impl Picture {
    /// The device with nothing on it; what is not in the region of `about`, where one is given, is outside.
    pub fn of(device: &Device, about: Option<Job>, title: impl Into<String>) -> Picture {
        let mark = |location| if about.map_or(true, |job| device.has(job, location)) { Mark::Free } else { Mark::Outside };
        Picture { title: title.into(), about, marks: (0..device.locations()).map(mark).collect(), route: vec![] }
    }

    /// The same with the qubits of a map on it, and for each the slot that holds it, as far as slots are given.
    #[must_use]
    pub fn with_map(mut self, map: &[u8], slots: &[Option<u8>]) -> Picture {
        for (location, (mark, &job)) in self.marks.iter_mut().zip(map).enumerate() {
            if let Ok(job) = Job::try_from(u64::from(job)) {
                *mark = Mark::Held(job, slots.get(location).copied().flatten());
            }
        }
        self
    }

    /// The mark of a location; free where it has none.
    pub fn mark(&self, location: usize) -> Mark {
        self.marks.get(location).copied().unwrap_or(Mark::Free)
    }

    /// How a location looks.
    pub fn look(&self, device: &Device, location: usize) -> Look {
        match self.mark(location) {
            Mark::First => Look::First,
            Mark::Second => Look::Second,
            Mark::Held(job, slot) => Look::Held(job, slot.is_some()),
            Mark::Occupied => Look::Occupied,
            Mark::Outside => Look::Outside,
            Mark::Free | Mark::Reached if self.route.contains(&location) => Look::Route,
            Mark::Reached => Look::Reached,
            Mark::Free if self.about.is_some() => Look::Free,
            Mark::Free => Look::Of(device.owners.get(location).copied().unwrap_or(0)),
        }
    }

    /// How the edge between two locations looks.
    pub fn way(&self, device: &Device, a: usize, b: usize) -> Way {
        let goes = |step: &[usize]| *step == [a, b] || *step == [b, a];
        let joins = |job: Job| device.has(job, a) && device.has(job, b);
        if self.route.windows(2).any(goes) {
            Way::Route
        } else if self.about.map_or_else(|| Job::ALL.iter().any(|&job| joins(job)), joins) {
            Way::Open
        } else {
            Way::Closed
        }
    }

    /// The short sign of a location: a letter for each look, the slot of a qubit.
    pub fn sign(&self, device: &Device, location: usize) -> String {
        match self.mark(location) {
            Mark::Held(job, Some(slot)) => format!("{}s{slot}", self.whose(job)),
            _ => self.sign_of(self.look(device, location)),
        }
    }

    /// The job's number before a slot, where the picture is not about this job alone.
    fn whose(&self, job: Job) -> String {
        if self.about == Some(job) {
            String::new()
        } else {
            format!("{}:", job.number())
        }
    }

    /// The sign of a look, with an N for a slot.
    fn sign_of(&self, look: Look) -> String {
        match look {
            Look::First => "A".to_string(),
            Look::Second => "B".to_string(),
            Look::Held(job, true) => format!("{}sN", self.whose(job)),
            Look::Held(job, false) => job.number().to_string(),
            Look::Occupied => "x".to_string(),
            Look::Route => "*".to_string(),
            Look::Reached => "o".to_string(),
            Look::Free => ".".to_string(),
            Look::Of(0) => "-".to_string(),
            Look::Of(job) => job.to_string(),
            Look::Outside => "#".to_string(),
        }
    }

    /// The looks that occur, each with its sign and what it means.
    pub fn legend(&self, device: &Device) -> Vec<(Look, String, String)> {
        let mut looks: Vec<Look> = (0..device.locations()).map(|location| self.look(device, location)).collect();
        looks.sort_unstable_by_key(|&look| (look == Look::Of(0), look)); // nobody's last
        looks.dedup();
        looks.iter().map(|&look| (look, self.sign_of(look), self.means(look, &looks))).collect()
    }

    /// What a look means, beside these others.
    fn means(&self, look: Look, all: &[Look]) -> String {
        let alone = all.iter().all(|look| matches!(look, Look::Of(_)));
        match look {
            Look::First => "the first end".to_string(),
            Look::Second => "the second end".to_string(),
            Look::Held(job, true) => format!("a qubit of {job}, in slot N"),
            Look::Held(job, false) => format!("a qubit of {job}"),
            Look::Occupied => "occupied".to_string(),
            Look::Route => "free, and on the route".to_string(),
            Look::Reached => "free, and reached from A".to_string(),
            Look::Free if all.contains(&Look::First) && self.route.is_empty() => "free, but not reached from A".to_string(),
            Look::Free => "free".to_string(),
            Look::Of(0) => "a location of nobody".to_string(),
            Look::Of(job) => format!("{}in the region of job {job}", if alone { "" } else { "free, " }),
            Look::Outside => self.about.map_or_else(|| "outside".to_string(), |job| format!("not in the region of {job}")),
        }
    }

    /// What a closed edge is.
    pub fn closed(&self) -> String {
        self.about.map_or_else(|| "an edge in no region".to_string(), |job| format!("an edge that is not in the region of {job}"))
    }
}
