//! Jobs, schedules and records.

use abwakiris::{Job, Number, Record, Records, Schedule, Told};

#[test]
fn jobs() {
    assert_eq!(Job::ALL, [Job::ONE, Job::TWO]);
    for (i, job) in Job::ALL.iter().enumerate() {
        assert_eq!(usize::from(job.number()), i + 1);
        assert_eq!(Job::try_from(i as u64 + 1), Ok(*job));
        assert_eq!(job.to_string(), format!("job {}", i + 1));
    }
}

#[test]
fn schedules() {
    assert!(Schedule::new().is_empty() && Schedule::default() == Schedule::new());
    let all = [(Job::ONE, false), (Job::ONE, true), (Job::TWO, false), (Job::TWO, true)];
    let mut schedule: Schedule = all.into_iter().collect();
    assert_eq!(schedule.as_bytes(), [0x10, 0x11, 0x20, 0x21]);
    assert_eq!((&*schedule, schedule.as_ref()), (schedule.as_bytes(), schedule.as_bytes()));
    schedule.extend([(Job::TWO, true)]);
    schedule.push(Job::ONE, true);
    assert_eq!(schedule.as_bytes(), [0x10, 0x11, 0x20, 0x21, 0x21, 0x11]);
    assert_eq!(schedule.len(), 6);
    assert!(schedule.repeat(0).is_empty());
    assert_eq!(schedule.repeat(3).as_bytes(), schedule.as_bytes().repeat(3));
}

#[test]
fn records() {
    let bytes = [0, 255, 0, 14, 1, 0, 0xFF, 0xFF, 21, 0, 0x0F, 0xFD, 99, 0, 1, 0];
    let all = [
        Record { told: Told::Moved, edges: 255, offset: Some(14) },
        Record { told: Told::Finished, edges: 0, offset: None },
        Record { told: Told::Stuck(Number::NoPath), edges: 0, offset: Some(4093) },
        Record { told: Told::Stuck(Number::Unknown(99)), edges: 0, offset: Some(256) },
    ];
    assert_eq!(Records::new(&bytes).collect::<Vec<_>>(), all);
    assert!(Records::new(&bytes).rev().eq(all.into_iter().rev()));
    let mut records = Records::new(&bytes);
    for left in (1..=4).rev() {
        assert_eq!(records.len(), left);
        assert_eq!(records.next(), Some(all[4 - left]));
    }
    assert_eq!((records.len(), records.next(), records.next()), (0, None, None));
}

/// Up to three bytes after the last record are ignored.
#[test]
fn incomplete_records() {
    for length in 0..=9 {
        assert_eq!(Records::new(&[0; 9][..length]).count(), length / 4);
    }
}
