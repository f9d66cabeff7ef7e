//! Pictures: layouts, the drawing in the terminal, the SVG, and the command `show`; over known shapes and over some hundred random devices.

#[path = "parts/scratch.rs"]
mod scratch;

use abwakiris::Job;
use abwakiris_desk::device::Device;
use abwakiris_desk::layout::Layout;
use abwakiris_desk::picture::{Mark, Picture, Way};
use abwakiris_desk::{svg, terminal};
use std::collections::{HashMap, HashSet};

type Edges = Vec<(usize, usize)>;

/// A device of so many locations with these edges in any order, each location of the owner that its number gives.
fn device(n: usize, edges: &[(usize, usize)], owner: impl Fn(usize) -> u8) -> Device {
    Device::read(&bytes(n, edges, owner)).expect("the device reads")
}

fn bytes(n: usize, edges: &[(usize, usize)], owner: impl Fn(usize) -> u8) -> Vec<u8> {
    let mut edges: Edges = edges.iter().map(|&(a, b)| (a.min(b), a.max(b))).collect();
    edges.sort_unstable();
    edges.dedup();
    let mut bytes = b"QLG\x00\x01".to_vec();
    bytes.extend_from_slice(&(n as u16).to_be_bytes());
    bytes.extend_from_slice(&(edges.len() as u16).to_be_bytes());
    bytes.extend((0..n).map(owner));
    bytes.extend(edges.iter().flat_map(|&(a, b)| [a as u8, b as u8]));
    bytes
}

fn grid(rows: usize, columns: usize) -> Edges {
    let across = (0..rows * columns).filter(|location| (location + 1) % columns != 0).map(|location| (location, location + 1));
    across.chain((0..(rows - 1) * columns).map(|location| (location, location + columns))).collect()
}

fn ring(n: usize) -> Edges {
    (0..n).map(|location| (location, (location + 1) % n)).collect()
}

fn line(n: usize) -> Edges {
    (1..n).map(|location| (location - 1, location)).collect()
}

fn star(n: usize) -> Edges {
    (1..n).map(|location| (0, location)).collect()
}

/// Numbers that are the same in every test run.
struct Random(u64);

impl Random {
    fn below(&mut self, below: usize) -> usize {
        self.0 = self.0.wrapping_mul(6_364_136_223_846_793_005).wrapping_add(1_442_695_040_888_963_407);
        ((self.0 >> 33) as usize) % below
    }

    fn edges(&mut self, n: usize, count: usize) -> Edges {
        let mut edges = HashSet::new();
        let most = count.min(n * (n - 1) / 2);
        while edges.len() < most {
            let (a, b) = (self.below(n), self.below(n));
            if a != b {
                edges.insert((a.min(b), a.max(b)));
            }
        }
        edges.into_iter().collect()
    }

    /// The same edges under other numbers.
    fn renumbered(&mut self, n: usize, edges: &[(usize, usize)]) -> Edges {
        let mut new: Vec<usize> = (0..n).collect();
        (1..n).rev().for_each(|i| new.swap(i, self.below(i + 1)));
        edges.iter().map(|&(a, b)| (new[a], new[b])).collect()
    }
}

/// Devices of every shape that is known, with their names.
fn shapes() -> Vec<(&'static str, Device)> {
    let mut random = Random(1);
    let own = |_| 1;
    let halves = |location: usize| 1 + u8::from(location % 7 > 4);
    let thirds = |location: usize| (location % 3) as u8;
    vec![
        ("2x3", device(6, &grid(2, 3), own)),
        ("3x7", device(21, &grid(3, 7), halves)),
        ("5x7", device(35, &grid(5, 7), halves)),
        ("5x7 in another order", device(35, &random.renumbered(35, &grid(5, 7)), own)),
        ("16x16", device(256, &grid(16, 16), halves)),
        ("2x128", device(256, &grid(2, 128), own)),
        ("128x2", device(256, &grid(128, 2), own)),
        ("a ring of 3", device(3, &ring(3), own)),
        ("a ring of 12", device(12, &ring(12), thirds)),
        ("a ring of 255", device(255, &random.renumbered(255, &ring(255)), own)),
        ("a star", device(30, &star(30), own)),
        ("a line of 256", device(256, &line(256), own)),
        ("a random one", device(40, &random.edges(40, 70), thirds)),
        ("one location", device(1, &[], own)),
        ("256 without edges", device(256, &[], thirds)),
        ("pairs", device(64, &(0..32).map(|i| (2 * i, 2 * i + 1)).collect::<Edges>(), own)),
        ("256 with 1024 edges", device(256, &random.edges(256, 1024), thirds)),
    ]
}

/// Random devices: sparse and dense ones, grids with missing edges, in several parts.
fn random_devices() -> Vec<Device> {
    let mut random = Random(2);
    let mut devices = vec![];
    for i in 0..200 {
        let (n, edges) = if i % 4 == 0 {
            let (rows, columns) = (2 + random.below(4), 2 + random.below(5));
            let kept: Edges = grid(rows, columns).into_iter().filter(|_| random.below(6) > 0).collect();
            (rows * columns, random.renumbered(rows * columns, &kept))
        } else {
            let n = 1 + random.below(24);
            let count = random.below(2 * n);
            (n, random.edges(n, count))
        };
        let shift = random.below(5);
        devices.push(device(n, &edges, |location| ((location + shift) % 5 % 3) as u8));
    }
    devices
}

/// A picture with every kind of mark that the device has room for.
fn marked(device: &Device, about: Option<Job>, random: &mut Random) -> Picture {
    let mut picture = Picture::of(device, about, "any marks");
    for (location, mark) in picture.marks.iter_mut().enumerate() {
        let owner = Job::try_from(u64::from(device.owners[location])).ok();
        *mark = match (random.below(8), owner) {
            (0, Some(job)) => Mark::Held(job, Some(random.below(32) as u8)),
            (1, Some(job)) => Mark::Held(job, None),
            (2, _) => Mark::Occupied,
            (3, _) => Mark::Reached,
            (4, _) if location == 1 => Mark::First,
            (5, _) if location == 2 => Mark::Second,
            _ => *mark,
        };
    }
    if let Some(&(a, b)) = device.edges.first() {
        picture.route = vec![a, b];
    }
    picture
}

/// Whether no two locations have one cell.
fn all_apart(layout: &Layout) -> bool {
    layout.cells.iter().collect::<HashSet<_>>().len() == layout.cells.len()
}

/// Whether every edge joins cells side by side.
fn is_grid(device: &Device, layout: &Layout) -> bool {
    device.edges.iter().all(|&(a, b)| matches!(layout.apart(a, b), (0, 1) | (1, 0)))
}

#[test]
fn every_location_has_a_cell_of_its_own() {
    for device in shapes().into_iter().map(|(_, device)| device).chain(random_devices()) {
        let (n, layout) = (device.locations(), Layout::of(&device, None));
        for layout in [&layout, &Layout::of(&device, Some(1)), &Layout::of(&device, Some(5)), &Layout::of(&device, Some(1000))] {
            assert_eq!(layout.cells.len(), n);
            assert!(all_apart(layout));
        }
        assert!(layout.rows() * layout.columns() <= 4 * n + 32, "{} rows, {} columns for {n}", layout.rows(), layout.columns());
    }
}

#[test]
fn layouts_are_always_the_same() {
    for (name, device) in shapes() {
        assert_eq!(Layout::of(&device, None), Layout::of(&device, None), "{name}");
    }
}

#[test]
fn a_width_is_forced() {
    let layout = Layout::of(&device(10, &line(10), |_| 1), Some(4));
    let cells: Vec<(usize, usize)> = (0..10).map(|location| (location / 4, location % 4)).collect();
    assert_eq!(layout.cells, cells);
    assert_eq!((layout.rows(), layout.columns()), (3, 4));
    assert_eq!(Layout::of(&device(2, &[], |_| 1), Some(0)).cells, [(0, 0), (1, 0)]);
}

#[test]
fn a_grid_by_its_numbers_stands_as_it_is_numbered() {
    let mut random = Random(9);
    for (rows, columns) in [(1, 9), (2, 2), (2, 3), (3, 7), (8, 9), (16, 16), (20, 3), (2, 128), (128, 2)] {
        // of its edges some are missing, but none of the first column
        let some: Edges = grid(rows, columns).into_iter().filter(|&(a, b)| b == a + columns && a % columns == 0 || random.below(6) > 0).collect();
        for edges in [grid(rows, columns), if rows > 1 { some } else { grid(rows, columns) }] {
            let layout = Layout::of(&device(rows * columns, &edges, |_| 1), None);
            assert_eq!(layout.columns(), columns, "{rows} rows of {columns}");
            assert!(layout.cells.iter().enumerate().all(|(location, &cell)| cell == (location / columns, location % columns)));
        }
    }
}

#[test]
fn a_grid_is_known_by_its_shape() {
    let mut random = Random(3);
    for (rows, columns) in [(2, 2), (2, 3), (5, 7), (7, 5), (9, 9), (16, 16)] {
        let n = rows * columns;
        let device = device(n, &random.renumbered(n, &grid(rows, columns)), |_| 1);
        let layout = Layout::of(&device, None);
        assert!(is_grid(&device, &layout), "{rows} rows of {columns}");
        assert_eq!((layout.rows(), layout.columns()), (rows.min(columns), rows.max(columns)));
    }
}

#[test]
fn a_grid_with_a_hole_is_known_by_its_shape() {
    let hole = [16, 17, 23, 24];
    let edges: Edges = grid(6, 7).into_iter().filter(|(a, b)| !hole.contains(a) && !hole.contains(b)).collect();
    let device = device(42, &Random(4).renumbered(42, &edges), |_| 1);
    assert!(is_grid(&device, &Layout::of(&device, None)));
}

#[test]
fn diagonal_and_a_few_far_edges_leave_a_grid_a_grid() {
    let mut edges = grid(4, 6);
    edges.extend([(0, 23), (0, 7), (1, 8), (5, 10)]);
    let layout = Layout::of(&device(24, &edges, |_| 1), None);
    assert!(layout.cells.iter().enumerate().all(|(location, &cell)| cell == (location / 6, location % 6)));
}

#[test]
fn lines_and_rings_are_folded() {
    let mut random = Random(5);
    for n in [2, 16, 17, 100, 256] {
        let device = device(n, &random.renumbered(n, &line(n)), |_| 1);
        let layout = Layout::of(&device, None);
        assert!(is_grid(&device, &layout), "a line of {n}");
        assert!(layout.columns() <= 16, "a line of {n}");
    }
    for n in 3..=256 {
        let device = device(n, &ring(n), |_| 1);
        let layout = Layout::of(&device, None);
        let apart: Vec<(usize, usize)> = device.edges.iter().map(|&(a, b)| layout.apart(a, b)).collect();
        assert!(all_apart(&layout) && layout.columns() <= 16, "a ring of {n}");
        assert!(apart.iter().all(|&(rows, columns)| rows <= 1 && columns <= 1), "a ring of {n}");
        assert_eq!(apart.iter().filter(|&&apart| apart == (1, 1)).count(), n % 2, "a ring of {n}");
    }
}

#[test]
fn neighbours_stay_near() {
    let device = device(60, &Random(6).edges(60, 90), |_| 1);
    let length = |width: Option<usize>| {
        let layout = Layout::of(&device, width);
        device.edges.iter().map(|&(a, b)| layout.apart(a, b).0 + layout.apart(a, b).1).sum::<usize>()
    };
    assert!(2 * length(None) < length(Some(8)), "{} against {}", length(None), length(Some(8)));
}

/// The lines of a drawing that has no bands: for each row of cells its numbers, its marks and what is below.
fn drawing(text: &str, rows: usize) -> Vec<[String; 3]> {
    let mut lines = text.lines().skip(2).map(str::to_string);
    let mut next = || lines.next().unwrap_or_default();
    (0..rows).map(|_| [next(), next(), next()]).collect()
}

/// Where the words of a line begin, and the words.
fn words(line: &str) -> Vec<(usize, String)> {
    let mut words: Vec<(usize, String)> = vec![];
    for (at, letter) in line.char_indices().filter(|(_, letter)| *letter != ' ') {
        match words.last_mut() {
            Some((from, word)) if *from + word.len() == at => word.push(letter),
            _ => words.push((at, letter.to_string())),
        }
    }
    words
}

/// What a line has between two places.
fn between(line: &str, from: usize, to: usize) -> &str {
    line.get(from..to.min(line.len())).unwrap_or("")
}

/// The edges that are listed below a drawing.
fn listed(text: &str) -> HashSet<(usize, usize)> {
    let from = text.find("  further edges").unwrap_or(text.len());
    let pair = |word: &str| {
        let (a, b) = word.split_once(&['-', '='][..])?;
        Some((a.parse().ok()?, b.parse().ok()?))
    };
    text[from..].split_whitespace().filter_map(pair).collect()
}

/// A location in a drawing: the place of its middle, and the lines of its row.
type Place<'a> = (usize, &'a [String; 3]);

/// Whether the edge between two locations is drawn.
fn is_drawn(layout: &Layout, places: &[Place], a: usize, b: usize) -> bool {
    let ((a_at, a_lines), (b_at, b_lines)) = (places[a], places[b]);
    let (from, to) = (a_at.min(b_at), a_at.max(b_at));
    let upper = if layout.cells[a].0 < layout.cells[b].0 { a_lines } else { b_lines };
    match layout.apart(a, b) {
        (0, 1) => ["--", "==", "::", "]-[", "]=[", "]:["].iter().any(|edge| between(&a_lines[1], from, to).contains(edge)),
        (1, 0) => matches!(between(&upper[2], from, from + 1), "|" | ":"),
        (1, 1) => {
            let falls = (layout.cells[a].0 < layout.cells[b].0) == (layout.cells[a].1 < layout.cells[b].1);
            between(&upper[2], from + 1, to).contains(&['X', if falls { '\\' } else { '/' }][..])
        }
        _ => false,
    }
}

/// Checks a drawing without bands against the device: each number once at its place with its mark, each edge drawn or listed, and no other.
fn check_terminal(name: &str, device: &Device, layout: &Layout, picture: &Picture) {
    let text = terminal::drawn(device, layout, picture);
    assert!(text.bytes().all(|byte| byte == b'\n' || (b' '..=b'~').contains(&byte)), "{name}: {text}");
    assert!(text.lines().all(|line| line.len() <= 120 && !line.ends_with(' ')), "{name}:\n{text}");
    assert!(!text.contains("columns"), "{name}");
    let grid: Vec<Vec<Option<usize>>> = layout.grid().into_iter().filter(|row| row.iter().any(Option::is_some)).collect();
    let rows = drawing(&text, grid.len());
    let mut places: Vec<Option<Place>> = vec![None; device.locations()];
    for (lines, row) in rows.iter().zip(&grid) {
        let found: Vec<(usize, usize)> = words(&lines[0]).iter().map(|(at, word)| (at + word.len() / 2, word.parse().expect(name))).collect();
        let numbers: Vec<usize> = found.iter().map(|&(_, location)| location).collect();
        assert_eq!(numbers, row.iter().copied().flatten().collect::<Vec<usize>>(), "{name}:\n{text}");
        found.iter().for_each(|&(middle, location)| places[location] = Some((middle, lines)));
    }
    let places: Vec<Place> = places.into_iter().map(|place| place.expect("each location is drawn")).collect();
    for (location, (middle, lines)) in places.iter().enumerate() {
        let sign = picture.sign(device, location);
        let (from, length) = (middle - (sign.len() + 2) / 2, sign.len() + 2);
        let found = format!("{:length$}", between(&lines[1], from, from + length));
        assert!(found == format!("[{sign}]") || found == format!(" {sign} "), "{name}: location {location} has {found:?}\n{text}");
    }
    let listed = listed(&text);
    for a in 0..device.locations() {
        for b in a + 1..device.locations() {
            let times = usize::from(is_drawn(layout, &places, a, b)) + usize::from(listed.contains(&(a, b)));
            assert_eq!(times, usize::from(device.near(a).contains(&b)), "{name}: {a}-{b}\n{text}");
        }
    }
}

#[test]
fn the_terminal_has_every_location_and_every_edge() {
    let mut random = Random(7);
    for (name, device) in shapes() {
        let layout = Layout::of(&device, None);
        if layout.columns() <= 16 {
            check_terminal(name, &device, &layout, &Picture::of(&device, None, name));
            check_terminal(name, &device, &layout, &Picture::of(&device, Some(Job::ONE), name));
        }
        if layout.columns() <= 12 {
            check_terminal(name, &device, &layout, &marked(&device, None, &mut random));
        }
    }
    for device in random_devices() {
        for (width, about) in [(None, None), (None, Some(Job::TWO)), (Some(1 + random.below(6)), Some(Job::ONE))] {
            let layout = Layout::of(&device, width);
            if layout.columns() <= 12 {
                check_terminal("random", &device, &layout, &marked(&device, about, &mut random));
            }
        }
    }
}

#[test]
fn a_wide_drawing_is_broken_in_bands() {
    let device = device(256, &grid(2, 128), |_| 1);
    let text = terminal::drawn(&device, &Layout::of(&device, None), &Picture::of(&device, Some(Job::ONE), "a ladder"));
    assert!(text.lines().all(|line| line.len() <= 120), "{text}");
    let bands: Vec<&str> = text.split("  columns ").skip(1).collect();
    assert!(bands.len() > 4 && bands[0].starts_with("0 to ") && bands[bands.len() - 1].contains(" to 127\n"), "{text}");
    let numbers: Vec<usize> = bands.iter().flat_map(|band| band.lines().skip(1).take(5).flat_map(words)).filter_map(|(_, word)| word.parse().ok()).collect();
    assert_eq!(numbers.len(), 256);
    assert_eq!(numbers.iter().collect::<HashSet<_>>().len(), 256);
    assert!(bands[0].lines().nth(2).map_or(false, |line| line.ends_with(". --")), "{text}");
    assert!(bands[1].lines().nth(2).map_or(false, |line| line.starts_with("-- ")), "{text}");
    assert!(!text.contains("further"));
}

#[test]
fn a_title_of_any_letters_stays_ascii_in_the_terminal() {
    let device = device(1, &[], |_| 1);
    let text = terminal::drawn(&device, &Layout::of(&device, None), &Picture::of(&device, None, "a\u{1b}[31m\u{e4}\nb"));
    assert_eq!(text.lines().next(), Some("a?[31m??b"));
}

/// The story's picture: one location is reached from the first end, then a qubit is in the way.
fn story() -> (Device, Picture) {
    let device = device(21, &grid(3, 7), |location| 1 + u8::from(location % 7 > 4));
    let mut picture = Picture::of(&device, Some(Job::ONE), "device story, at the merge");
    for (slot, location) in (2..).zip([0, 1, 2, 3, 4, 9, 14, 15, 16, 17, 18]) {
        picture.marks[location] = Mark::Held(Job::ONE, Some(slot));
    }
    picture.marks[7] = Mark::First;
    picture.marks[8] = Mark::Reached;
    picture.marks[11] = Mark::Second;
    (device, picture)
}

#[test]
fn the_story_as_it_is_printed() {
    let (device, picture) = story();
    let wanted = r"device story, at the merge

    0        1        2        3        4        5        6
  [s2]-----[s3]-----[s4]-----[s5]-----[s6]  ::   #   ::   #
    |        |        |        |        |        :        :
    7        8        9       10       11       12       13
   [A]------ o -----[s7]------ . ------[B]  ::   #   ::   #
    |        |        |        |        |        :        :
   14       15       16       17       18       19       20
  [s8]-----[s9]-----[s10]----[s11]----[s12] ::   #   ::   #

  [A]   the first end
  [B]   the second end
  [sN]  a qubit of job 1, in slot N
   o    free, and reached from A
   .    free, but not reached from A
   #    not in the region of job 1
  :: :  an edge that is not in the region of job 1
";
    assert_eq!(terminal::drawn(&device, &Layout::of(&device, None), &picture), wanted);
}

#[test]
fn a_map_as_it_is_printed() {
    let device = device(6, &grid(2, 3), |location| [1, 1, 2, 0, 1, 2][location]);
    let mut picture = Picture::of(&device, None, "a map").with_map(&[1, 0, 2, 0, 0, 0], &[]);
    picture.marks[2] = Mark::Held(Job::TWO, Some(31));
    picture.route = vec![1, 4];
    let wanted = r"a map

     0          1          2
    [1]-------- *   ::  [2:s31]
     :          ||         |
     3          4          5
     -    ::    *    ::    2

  [1]     a qubit of job 1
  [2:sN]  a qubit of job 2, in slot N
   *      free, and on the route
   2      free, in the region of job 2
   -      a location of nobody
  === ||  the route
  :: :    an edge in no region
";
    assert_eq!(terminal::drawn(&device, &Layout::of(&device, None), &picture), wanted);
}

/// A tag of an SVG: its name and its attributes.
type Tag = (String, Vec<(String, String)>);

/// Goes over all tags, and checks that they are balanced and that every text and value is well formed.
fn tags(text: &str) -> Vec<Tag> {
    let mut rest = text.strip_prefix("<?xml version=\"1.0\" encoding=\"UTF-8\"?>\n").expect("the declaration");
    let (mut open, mut tags): (Vec<String>, Vec<Tag>) = (vec![], vec![]);
    while let Some(at) = rest.find('<') {
        check_text(&rest[..at]);
        assert!(!open.is_empty() || rest[..at].trim().is_empty(), "text outside");
        let end = at + rest[at..].find('>').expect("a tag ends");
        let tag = &rest[at + 1..end];
        rest = &rest[end + 1..];
        if let Some(name) = tag.strip_prefix('/') {
            assert_eq!(open.pop().as_deref(), Some(name));
            continue;
        }
        assert!(!open.is_empty() || tags.is_empty(), "one root");
        let inner = tag.strip_suffix('/').unwrap_or(tag);
        let (name, values) = inner.split_once(' ').unwrap_or((inner, ""));
        tags.push((name.to_string(), attributes(values)));
        if inner == tag {
            open.push(name.to_string());
        }
    }
    assert!(open.is_empty() && rest.trim().is_empty());
    tags
}

fn attributes(mut values: &str) -> Vec<(String, String)> {
    let mut attributes: Vec<(String, String)> = vec![];
    while let Some((attribute, after)) = values.trim_start().split_once("=\"") {
        let (value, after) = after.split_once('"').expect("a value ends");
        check_text(value);
        assert!(attribute.bytes().all(|byte| byte.is_ascii_alphanumeric() || byte == b'-'), "{attribute}");
        assert!(attributes.iter().all(|(other, _)| other != attribute), "{attribute} twice");
        attributes.push((attribute.to_string(), value.to_string()));
        values = after;
    }
    assert!(values.trim().is_empty(), "{values}");
    attributes
}

/// Text has no tag in it, and every & begins an entity.
fn check_text(text: &str) {
    assert!(!text.contains('<') && !text.contains('>'), "{text}");
    for entity in text.split('&').skip(1) {
        let name = entity.split_once(';').map(|(name, _)| name);
        assert!(matches!(name, Some("amp" | "lt" | "gt" | "quot" | "#39")), "{text}");
    }
    assert!(text.chars().all(|letter| letter == '\n' || letter >= ' '), "{text:?}");
}

fn value<'a>(tag: &'a Tag, name: &str) -> &'a str {
    tag.1.iter().find(|(attribute, _)| attribute == name).map_or("", |(_, value)| value)
}

/// The points that a path goes through.
fn points(path: &str) -> Vec<(f64, f64)> {
    let words = path.split(|letter: char| !letter.is_ascii_digit() && letter != '-' && letter != '.');
    let numbers: Vec<f64> = words.filter_map(|word| word.parse().ok()).collect();
    numbers.chunks_exact(2).map(|pair| (pair[0], pair[1])).collect()
}

/// Whether a tag may stand in a file that has all in itself.
fn is_plain((name, values): &Tag) -> bool {
    let is_inside = |(attribute, value): &(String, String)| {
        !attribute.contains("href") && !attribute.starts_with("on") && (!value.contains("url(") || value.starts_with("url(#"))
    };
    !["script", "image", "use", "a", "foreignObject", "style"].contains(&name.as_str()) && values.iter().all(is_inside)
}

/// Checks an SVG: well formed, nothing from elsewhere, each location and each edge once, and no edge through the cell of another location.
fn check_svg(name: &str, device: &Device, layout: &Layout, picture: &Picture) {
    let tags = tags(&svg::drawn(device, layout, picture));
    assert_eq!((tags[0].0.as_str(), value(&tags[0], "xmlns")), ("svg", "http://www.w3.org/2000/svg"));
    assert!(!value(&tags[0], "viewBox").is_empty());
    assert!(tags.iter().all(is_plain), "{name}");
    let ids: Vec<&str> = tags.iter().map(|tag| value(tag, "id")).filter(|id| !id.is_empty()).collect();
    let known: HashSet<&str> = ids.iter().copied().collect();
    assert_eq!(ids.len(), known.len(), "{name}: an id twice");
    assert_eq!(ids.iter().filter(|id| id.starts_with("location-")).count(), device.locations());
    assert_eq!(ids.iter().filter(|id| id.starts_with("edge-")).count(), device.edges.len());
    assert!((0..device.locations()).all(|location| known.contains(format!("location-{location}").as_str())));

    let number = |tag: &Tag, name: &str| value(tag, name).parse::<f64>().expect(name);
    let squares = tags.iter().filter(|tag| value(tag, "fill-opacity") == "0");
    let cells: Vec<[f64; 3]> = squares.map(|tag| [number(tag, "x"), number(tag, "y"), number(tag, "width")]).collect();
    assert_eq!(cells.len(), device.locations());
    let edges: HashMap<&str, &Tag> = tags.iter().map(|tag| (value(tag, "id"), tag)).collect();
    for &(a, b) in &device.edges {
        let id = format!("edge-{a}-{b}");
        let edge = edges.get(id.as_str()).expect(name);
        check_edge(&format!("{name}: {id}"), &points(value(edge, "d")), &cells, (a, b));
    }
}

/// Checks that a line goes from the cell of one location to that of another, and through no other.
fn check_edge(name: &str, points: &[(f64, f64)], cells: &[[f64; 3]], (a, b): (usize, usize)) {
    let is_in = |&[left, top, side]: &[f64; 3], (x, y): (f64, f64)| x > left && x < left + side && y > top && y < top + side;
    assert!(points.len() > 1 && is_in(&cells[a], points[0]) && is_in(&cells[b], points[points.len() - 1]), "{name}");
    for step in points.windows(2) {
        let others = cells.iter().enumerate().filter(|(location, _)| *location != a && *location != b);
        let crossed = others.filter(|(_, cell)| crosses(cell, step[0], step[1])).map(|(location, _)| location).next();
        assert_eq!(crossed, None, "{name}");
    }
}

/// Whether a straight line runs through a cell.
fn crosses(&[left, top, side]: &[f64; 3], (x, y): (f64, f64), (to_x, to_y): (f64, f64)) -> bool {
    let overlaps = |a: f64, b: f64, from: f64| a.max(b) > from && a.min(b) < from + side;
    let is_in = |part: f64| overlaps(x + (to_x - x) * part, x + (to_x - x) * part, left) && overlaps(y + (to_y - y) * part, y + (to_y - y) * part, top);
    let is_along = x == to_x || y == to_y;
    overlaps(x, to_x, left) && overlaps(y, to_y, top) && (is_along || (0..=40).any(|part| is_in(f64::from(part) / 40.0)))
}

#[test]
fn the_svg_has_every_location_and_every_edge() {
    let mut random = Random(8);
    for (name, device) in shapes() {
        check_svg(name, &device, &Layout::of(&device, None), &marked(&device, Some(Job::ONE), &mut random));
    }
    for device in random_devices() {
        for (width, about) in [(None, None), (Some(1 + random.below(6)), Some(Job::ONE))] {
            check_svg("random", &device, &Layout::of(&device, width), &marked(&device, about, &mut random));
        }
    }
    let (device, picture) = story();
    check_svg("story", &device, &Layout::of(&device, None), &picture);
}

#[test]
fn titles_are_escaped_in_the_svg() {
    let device = device(1, &[], |_| 1);
    let picture = Picture::of(&device, None, "<a href='x'> & \"b\" ]]> \u{0}\u{1b}\u{fffe} \u{e4}");
    let text = svg::drawn(&device, &Layout::of(&device, None), &picture);
    tags(&text);
    assert!(text.contains("<title>&lt;a href=&#39;x&#39;&gt; &amp; &quot;b&quot; ]]&gt; \u{fffd}\u{fffd}\u{fffd} \u{e4}</title>"), "{text}");
}

#[test]
fn edges_of_no_region_are_closed() {
    let (device, mut picture) = story();
    assert_eq!(picture.way(&device, 3, 4), Way::Open);
    assert_eq!(picture.way(&device, 4, 5), Way::Closed);
    assert_eq!(picture.way(&device, 5, 6), Way::Closed);
    picture.about = None;
    assert_eq!(picture.way(&device, 5, 6), Way::Open);
    picture.route = vec![6, 5];
    assert_eq!(picture.way(&device, 5, 6), Way::Route);
}

/// The command itself.
mod show {
    use super::scratch::Scratch;
    use super::{bytes, grid, tags};
    use std::process::Command;

    /// A folder of its own with a device in it.
    struct Folder(Scratch);

    impl Folder {
        fn new(name: &str) -> Folder {
            let folder = Folder(Scratch::new(&format!("pictures-{name}")));
            folder.write("device", &bytes(21, &grid(3, 7), |location| 1 + u8::from(location % 7 > 4)));
            folder
        }

        fn write(&self, name: &str, bytes: &[u8]) {
            std::fs::write(self.0.path().join(name), bytes).expect("a file");
        }

        /// The status, standard output and standard error of `show` with these words.
        fn show(&self, words: &[&str]) -> (Option<i32>, String, String) {
            let output = Command::new(env!("CARGO_BIN_EXE_abwakiris")).current_dir(self.0.path()).arg("show").args(words).output().expect("it runs");
            (output.status.code(), String::from_utf8_lossy(&output.stdout).into_owned(), String::from_utf8_lossy(&output.stderr).into_owned())
        }

        /// That these words are bad usage, with a message that has these in it.
        fn refuses(&self, words: &[&str], message: &str) {
            let (status, out, error) = self.show(words);
            assert_eq!((status, out.as_str()), (Some(2), ""), "{words:?}: {error}");
            assert!(error.starts_with("abwakiris: ") && error.contains(message), "{words:?}: {error}");
        }

        fn names(&self) -> Vec<String> {
            let entries = std::fs::read_dir(self.0.path()).expect("the folder");
            let mut names: Vec<String> = entries.map(|entry| entry.expect("an entry").file_name().to_string_lossy().into_owned()).collect();
            names.sort();
            names
        }
    }

    #[test]
    fn a_device_is_printed() {
        let folder = Folder::new("printed");
        let (status, out, error) = folder.show(&["device"]);
        assert_eq!((status, error.as_str()), (Some(0), ""));
        assert!(out.starts_with("device: 21 locations and 32 edges; job 1 has 15, job 2 has 6, nobody 0\n\n"), "{out}");
        assert!(out.contains("   1 ---- 1 ---- 1 ---- 1 ---- 1  ::  2 ---- 2\n"), "{out}");
        let (status, out, _) = folder.show(&["device", "--job", "2", "--occupied", "5,13"]);
        assert_eq!(status, Some(0));
        assert!(out.starts_with("device: 21 locations and 32 edges; 6 in the region of job 2\n\n"), "{out}");
        assert!(out.contains("   #  ::  #  ::  #  ::  #  ::  #  :: [x]---- .\n"), "{out}");
        let (_, out, _) = folder.show(&["device", "--width", "3"]);
        assert!(out.contains("\n   0      1      2\n"), "{out}");
    }

    #[test]
    fn an_svg_is_written() {
        let folder = Folder::new("svg");
        let (status, out, error) = folder.show(&["device", "--job=1", "-o", "a picture.svg"]);
        assert_eq!((status, out.as_str(), error.as_str()), (Some(0), "written: a picture.svg\n", ""));
        let text = std::fs::read_to_string(folder.0.path().join("a picture.svg")).expect("the picture");
        assert!(text.contains("viewBox"));
        tags(&text);
        assert_eq!(folder.names(), ["a picture.svg", "device"]);
    }

    #[test]
    fn a_run_is_drawn_and_played() {
        let folder = Folder::new("run");
        folder.write("first", b"QLS\x00\x01\x00\x00\x03\x01\x02\x07");
        let (status, out, error) = folder.show(&["device", "first", "--run", "10 20"]);
        assert_eq!((status, error.as_str()), (Some(0), ""));
        assert!(out.starts_with("device after "), "{out}");
        let (status, out, _) = folder.show(&["device", "none", "none", "--run", "10", "-o", "run.html"]);
        assert_eq!((status, out.as_str()), (Some(0), "written: run.html\n"));
        let (status, out, _) = folder.show(&["device", "first", "device", "--run", "10"]);
        assert_eq!(status, Some(1), "{out}");
        assert!(out.starts_with("refused 2: "), "{out}");
    }

    #[test]
    fn refusals_are_the_librarys() {
        let folder = Folder::new("refusals");
        folder.write("bad", b"QLG\x00\x02........");
        assert!(folder.show(&["bad"]).1.starts_with("refused 3: "));
        assert!(folder.show(&["device", "--job", "3"]).1.starts_with("refused 25: "));
        folder.refuses(&["bad", "--width", "0"], "--width takes a number from 1 on");
        let (status, out, error) = folder.show(&["bad", "-o", "x.svg"]);
        assert_eq!((status, error.as_str()), (Some(1), ""), "{out}");
        assert_eq!(folder.names(), ["bad", "device"]);
    }

    #[test]
    fn bad_usage() {
        let folder = Folder::new("usage");
        folder.refuses(&["device", "-o", "picture.png"], "-o takes a name that ends in .svg or .html, not `picture.png`");
        folder.refuses(&["device", "-o", "svg"], "-o takes a name that ends in .svg or .html");
        folder.refuses(&["device", "-o", "run.html"], "a page plays a run");
        folder.refuses(&["device", "none"], "--run SCHEDULE");
        folder.refuses(&["device", "--run", "10"], "--run needs the program of job 1");
        folder.refuses(&["device", "none", "--run", "10", "--occupied", "1"], "--occupied is for a device without a run");
        folder.refuses(&["device", "none", "--run", "1"], "a step has two");
        folder.refuses(&["device", "--occupied", "3,21"], "the device has no location 21; its locations are 0 to 20");
        folder.refuses(&["device", "--occupied", "3,,4"], "each location of --occupied takes a number, not ``");
        folder.refuses(&["device", "--occupied", "99999999999999999999"], "a number");
        folder.refuses(&["device", "--width", "0"], "--width takes a number from 1 on");
        folder.refuses(&["device", "--job", "x"], "--job takes a number");
        folder.refuses(&["nothing"], "nothing: no such file");
        folder.refuses(&["device", "nothing", "--run", "10"], "nothing: no such file");
        folder.refuses(&["device", "-o", "nowhere/x.svg"], "nowhere/x.svg: there is no such folder");
        std::fs::create_dir(folder.0.path().join("folder.svg")).expect("a folder");
        folder.refuses(&["device", "-o", "folder.svg"], "folder.svg: is a directory");
        assert_eq!(folder.names(), ["device", "folder.svg"]);
    }

    #[test]
    fn nothing_is_occupied_where_nothing_is_named() {
        let folder = Folder::new("none");
        assert_eq!(folder.show(&["device", "--occupied", ""]), folder.show(&["device"]));
        assert_eq!(folder.show(&["device", "-o", "-"]), folder.show(&["device"]));
    }
}
