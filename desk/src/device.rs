//! A device that the library has read, taken apart for words and pictures.

use abwakiris::{Job, Refusal};

/// A device that reads.
#[derive(Clone, Debug)]
pub struct Device {
    /// The file.
    pub bytes: Vec<u8>,
    /// The owner of each location: 0 nobody, else that job.
    pub owners: Vec<u8>,
    /// The edges in the file's order, the smaller end first.
    pub edges: Vec<(usize, usize)>,
    near: Vec<Vec<usize>>,
}

impl Device {
    /// Asks the library whether the bytes are a device, and takes them apart.
    ///
    /// # Errors
    ///
    /// The library's refusal.
    pub fn read(bytes: &[u8]) -> Result<Device, Refusal> {
        let n = abwakiris::locations(bytes)?;
        let owners = bytes[9..9 + n].to_vec();
        let edges: Vec<(usize, usize)> = bytes[9 + n..].chunks_exact(2).map(|edge| (usize::from(edge[0]), usize::from(edge[1]))).collect();
        let mut near = vec![vec![]; n];
        for &(a, b) in &edges {
            near[a].push(b);
            near[b].push(a);
        }
        for list in &mut near {
            list.sort_unstable();
        }
        Ok(Device { bytes: bytes.to_vec(), owners, edges, near })
    }

    /// How many locations it has.
    pub fn locations(&self) -> usize {
        self.owners.len()
    }

    /// Whether a location is in the region of a job.
    pub fn has(&self, job: Job, location: usize) -> bool {
        self.owners.get(location) == Some(&job.number())
    }

    /// The locations that an edge joins to this one, rising.
    pub fn near(&self, location: usize) -> &[usize] {
        &self.near[location]
    }

    /// The library's route between two ends of a job's region, over locations whose byte of the occupancy is 0.
    pub fn route(&self, job: Job, occupancy: &[u8], first: usize, second: usize) -> Option<Vec<usize>> {
        let mut buffer = [0; abwakiris::MOST_LOCATIONS];
        let length = abwakiris::route(&self.bytes, job, occupancy, first as u64, second as u64, &mut buffer).ok()?;
        Some(buffer[..length].iter().map(|&location| usize::from(location)).collect())
    }
}
