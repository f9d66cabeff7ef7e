//! The region of a job as sets of locations: what is reached in it over free locations.
//!
//! A set is four words, since the search of `why` asks for many corridors. What is found here only leads the way and finds words: the merge that is named,
//! and each corridor that is shown, is asked of the library again.

use crate::device::Device;
use abwakiris::Job;

/// A set of locations.
#[derive(Clone, Copy, Debug, Default, PartialEq, Eq, Hash)]
pub struct Locations([u64; 4]);

impl Locations {
    /// Whether a location is in it.
    pub fn has(&self, location: usize) -> bool {
        self.0.get(location / 64).map_or(false, |word| word >> (location % 64) & 1 == 1)
    }

    /// Puts a location in it; none that no device has.
    pub fn put(&mut self, location: usize) {
        if let Some(word) = self.0.get_mut(location / 64) {
            *word |= 1 << (location % 64);
        }
    }

    /// Takes a location out of it.
    pub fn take(&mut self, location: usize) {
        if let Some(word) = self.0.get_mut(location / 64) {
            *word &= !(1 << (location % 64));
        }
    }

    /// Whether it has no location.
    pub fn is_empty(&self) -> bool {
        self.0 == [0; 4]
    }

    /// Its locations, rising.
    pub fn list(&self) -> Vec<usize> {
        (0..256).filter(|&location| self.has(location)).collect()
    }

    /// The bytes of an occupancy of n locations with these occupied.
    pub fn occupancy(&self, n: usize) -> Vec<u8> {
        (0..n).map(|location| u8::from(self.has(location))).collect()
    }

    /// The locations that are in both.
    pub fn and(&self, other: &Locations) -> Locations {
        Locations(std::array::from_fn(|i| self.0[i] & other.0[i]))
    }

    /// The locations that are in one of the two or in both.
    pub fn or(&self, other: &Locations) -> Locations {
        Locations(std::array::from_fn(|i| self.0[i] | other.0[i]))
    }

    /// The locations that are not in the other.
    pub fn without(&self, other: &Locations) -> Locations {
        Locations(std::array::from_fn(|i| self.0[i] & !other.0[i]))
    }
}

impl FromIterator<usize> for Locations {
    fn from_iter<I: IntoIterator<Item = usize>>(locations: I) -> Locations {
        let mut set = Locations::default();
        locations.into_iter().for_each(|location| set.put(location));
        set
    }
}

/// The region of a job.
#[derive(Clone, Debug)]
pub struct Region<'a> {
    pub device: &'a Device,
    pub job: Job,
    pub all: Locations,
    /// For each location those of the region that an edge joins to it.
    near: Vec<Locations>,
}

impl<'a> Region<'a> {
    /// The region of this job.
    pub fn of(device: &'a Device, job: Job) -> Region<'a> {
        let all: Locations = (0..device.locations()).filter(|&location| device.has(job, location)).collect();
        let near = (0..device.locations()).map(|location| device.near(location).iter().copied().collect::<Locations>().and(&all)).collect();
        Region { device, job, all, near }
    }

    /// The free locations that are reached from one end over free ones.
    pub fn reached(&self, occupied: &Locations, from: usize) -> Locations {
        let mut free = self.all.without(occupied);
        free.take(from);
        let mut reached = Locations::default();
        let mut new = self.near(from).and(&free);
        while !new.is_empty() {
            reached = reached.or(&new);
            let next = self.next_to(&new);
            new = next.and(&free).without(&reached);
        }
        reached
    }

    /// Whether a corridor of free locations joins two ends.
    pub fn joined(&self, occupied: &Locations, first: usize, second: usize) -> bool {
        let near = self.near(second);
        near.has(first) || !self.reached(occupied, first).and(&near).is_empty()
    }

    /// The locations of the region that an edge joins to this one.
    pub fn near(&self, location: usize) -> Locations {
        self.near.get(location).copied().unwrap_or_default()
    }

    /// The locations of the region that an edge joins to one of these.
    fn next_to(&self, some: &Locations) -> Locations {
        let mut next = Locations::default();
        for (word, &bits) in some.0.iter().enumerate() {
            let mut left = bits;
            while left != 0 {
                next = next.or(&self.near(64 * word + left.trailing_zeros() as usize));
                left &= left - 1;
            }
        }
        next
    }
}
