//! Valid files as ecCodes reads them, against the independent decoder: how many fields, what each is, which points are present, and each value within
//! what the rules allow. The first file is one at the Agency's full size, and the others come from a seed. Where ecCodes is known to differ, what it is
//! known for is left out, counted by name, and counted again where it does differ; the rest of the field is compared.
use crate::answers::read_number;
use crate::files::valid;
use crate::random::Random;
use reference::{Description, Grid, GridKind, Level, Product};
use std::collections::BTreeMap;
use std::fs;
use std::io::{self, BufReader, Read, Write};
use std::process::{Command, Stdio};
use std::thread;

/// What is told in place of the number of fields where there was an error, and in place of a number that is missing.
const NONE: u64 = u64::MAX;
const MOST_SHOWN: u64 = 5;
/// ecCodes looks for more octets in a section 4 with this first surface.
const SURFACE_WITH_MORE: u8 = 150;
const ALL_ONES: u32 = u32::MAX;

/// What ecCodes tells of a field: how many numbers, and which of them are what is left out by name.
const NUMBERS: usize = 43;
const DI: usize = 16;
const DJ: usize = 17;
const N: usize = 36;
const BITMAP_PRESENT: usize = 37;
const R: usize = 39;

struct Told {
    numbers: Vec<u64>,
    values: Vec<f64>,
    presence: Vec<u8>,
}

fn field(from: &mut impl Read) -> io::Result<Told> {
    let numbers = (0..NUMBERS).map(|_| read_number(from)).collect::<io::Result<Vec<u64>>>()?;
    let points = read_number(from)?;
    let values = (0..points).map(|_| read_number(from).map(f64::from_bits)).collect::<io::Result<Vec<f64>>>()?;
    let mut presence = vec![0; points as usize];
    from.read_exact(&mut presence)?;
    Ok(Told { numbers, values, presence })
}

/// The fields of a file, or ecCodes' error.
fn fields(from: &mut impl Read) -> io::Result<Result<Vec<Told>, u64>> {
    match read_number(from)? {
        NONE => Ok(Err(read_number(from)?)),
        count => (0..count).map(|_| field(from)).collect::<io::Result<Vec<Told>>>().map(Ok),
    }
}

/// The numbers that ecCodes has to tell of a grid, in its order. Those that only the other kind of grid has are none, and the scanning mode is 0.
fn numbers_of_grid(grid: &Grid) -> Vec<u64> {
    let (template, last, steps, cone, lengths, cutting_latitudes) = match grid.kind {
        GridKind::Degrees(own) => (0, [own.last.latitude as u64, own.last.longitude.into()], [own.di, own.dj].map(u64::from), [NONE; 2], [NONE; 2], [NONE; 2]),
        GridKind::Lambert(own) => {
            let (cone, lengths) = ([own.stated_latitude as u64, own.upright_meridian.into()], [own.dx, own.dy].map(u64::from));
            (30, [NONE; 2], [NONE; 2], cone, lengths, own.cutting_latitudes.map(|latitude| latitude as u64))
        }
    };
    let sizes = [template, u64::from(grid.earth_code), u64::from(grid.radius), u64::from(grid.ni), u64::from(grid.nj)];
    let first = [grid.first.latitude as u64, u64::from(grid.first.longitude)];
    [&sizes[..], &first, &last, &steps, &cone, &lengths, &cutting_latitudes, &[0]].concat()
}

/// The numbers that ecCodes has to tell of a field, in its order. A validity time that it tells is the end of an interval, and R is +0 where it is -0.
fn numbers_of(described: &Description) -> Vec<u64> {
    let time = described.listed_time();
    let (factor, scaled) = described.level.map_or((NONE, NONE), |Level { factor, scaled_level }| (factor as u64, u64::from(scaled_level)));
    let mut numbers = vec![u64::from(described.discipline)];
    numbers.extend(described.reference_time.numbers());
    numbers.extend(numbers_of_grid(&described.grid));
    numbers.extend([described.category, described.parameter, described.first_surface_type].map(u64::from));
    numbers.extend([factor, scaled, if described.product == Product::Instant { 0 } else { 8 }]);
    numbers.extend([time.year, time.month, time.day, time.hour, time.minute]);
    numbers.extend([u64::from(described.n), u64::from(described.bitmap_indicator != 255), u64::from(described.data_template)]);
    numbers.extend([(f64::from(f32::from_bits(described.r)) + 0.0).to_bits(), described.e as u64, described.d as u64, u64::from(described.bits)]);
    numbers
}

/// What is left out of the comparison of a field, and under which names.
#[derive(Default)]
struct LeftOut {
    names: Vec<&'static str>,
    numbers: Vec<usize>,
    presence: bool,
    values: bool,
    /// The distance of a value may be up to twice what the rules allow.
    doubled: bool,
}

/// Where ecCodes is known to differ. `before` is the indicator of the nearest section 6 before the field's, in its grid, that is not 254.
fn left_out(described: &Description, before: Option<u8>) -> LeftOut {
    let mut found = LeftOut::default();
    if described.bitmap_indicator == 254 && before == Some(255) {
        found.names.push("254 behind a 255: it takes all points as present");
        found.numbers.extend([N, BITMAP_PRESENT]);
        found.presence = true;
        found.values = true;
    }
    if described.data_template == 0 && described.bits == 0 && described.d != 0 {
        found.names.push("5.0 with 0 bits and D not 0: it leaves out the division by 10^D");
        found.values = true;
    }
    if described.r & 0x7f80_0000 == 0 && described.r & 0x007f_ffff != 0 {
        found.names.push("R subnormal: it takes the hidden bit as set");
        found.numbers.push(R);
        found.values = true;
    }
    if (9..=11).contains(&described.d) {
        found.names.push("D 9, 10 or 11: its values are within 2^-50, and not all within 2^-51");
        found.doubled = true;
    }
    if matches!(described.grid.kind, GridKind::Degrees(own) if own.di == ALL_ONES || own.dj == ALL_ONES) {
        found.names.push("Di or Dj all ones: it tells 2,147,483,647");
        found.numbers.extend([DI, DJ]);
    }
    found
}

/// Is a value as near as the rules allow, or, where that is doubled, within 2^-50 of the double that the rules round to?
fn is_near(value: f64, described: &Description, x: u32, doubled: bool) -> bool {
    if reference::near_enough(value, described.r, described.e, described.d, x) {
        return true;
    }
    let exact = reference::rebuild(described.r, described.e, described.d, i64::from(x)).unwrap_or(f64::NAN);
    doubled && (value - exact).abs() <= exact.abs() * 2f64.powi(-50)
}

fn values_agree(told: &Told, described: &Description, integers: &[u32], presence: &[u8], doubled: bool) -> bool {
    let mut left = integers.iter();
    told.presence == presence
        && told.values.iter().zip(presence).all(|(value, present)| match present {
            0 => *value == 0.0,
            _ => left.next().map_or(false, |x| is_near(*value, described, *x, doubled)),
        })
}

/// What differs in a field, in words, and whether anything that is left out differs.
fn differences(told: &Told, file: &[u8], k: u64, described: &Description, left_out: &LeftOut) -> (Vec<String>, bool) {
    let expected = numbers_of(described);
    let differing = (0..NUMBERS).filter(|index| told.numbers[*index] != expected[*index]);
    let (known, unknown): (Vec<usize>, Vec<usize>) = differing.partition(|index| left_out.numbers.contains(index));
    let shown = |index: &usize| format!("number {}: {} told, {} expected", index, told.numbers[*index], expected[*index]);
    let mut found: Vec<String> = unknown.iter().map(shown).collect();
    let (integers, presence) = (reference::integers(file, k).unwrap_or_default(), reference::presence(file, k).unwrap_or_default());
    let presence_differs = told.presence != presence;
    let values_differ = !values_agree(told, described, &integers, &presence, left_out.doubled);
    if presence_differs && !left_out.presence {
        found.push("presence".to_string());
    }
    if values_differ && !left_out.values {
        found.push("values".to_string());
    }
    let strictly = left_out.doubled && !values_agree(told, described, &integers, &presence, false);
    (found, !known.is_empty() || (left_out.presence && presence_differs) || (left_out.values && values_differ) || strictly)
}

/// What was compared so far, and how many of the fields are on Lambert grids; by name, how many fields a known difference concerns, how many of them it
/// alone concerns, and in how many of these it shows.
#[derive(Default)]
struct Tally {
    files: u64,
    fields: u64,
    on_lambert: u64,
    points: u64,
    wrong: u64,
    known: BTreeMap<&'static str, (u64, u64, u64)>,
}

impl Tally {
    fn know(&mut self, name: &'static str, alone: bool, shows: bool) {
        let entry = self.known.entry(name).or_insert((0, 0, 0));
        entry.0 += 1;
        entry.1 += u64::from(alone);
        entry.2 += u64::from(alone && shows);
    }

    fn differs(&mut self, what: String) {
        self.wrong += 1;
        if self.wrong <= MOST_SHOWN {
            println!("{}", what);
        }
    }
}

/// The descriptions of all fields of a file, each with the indicator before it that ecCodes looks at.
fn described(file: &[u8]) -> Vec<(Description, Option<u8>)> {
    let count = reference::check(file).map_or(0, |counts| counts.fields);
    let (mut grid, mut before) = (None, None);
    let mut found = Vec::new();
    for k in 0..u64::from(count) {
        let description = reference::describe(file, k).expect("a field of a valid file");
        if grid != Some(description.starts.section_3) {
            before = None;
        }
        grid = Some(description.starts.section_3);
        found.push((description, before));
        if description.bitmap_indicator != 254 {
            before = Some(description.bitmap_indicator);
        }
    }
    found
}

fn compare(file: &[u8], told: Result<Vec<Told>, u64>, name: &str, tally: &mut Tally) {
    let expected = described(file);
    tally.files += 1;
    if expected.iter().any(|(description, _)| description.first_surface_type == SURFACE_WITH_MORE) {
        tally.know("a file with first surface 150: it looks for octets behind section 4's end", true, told.is_err());
        return;
    }
    let told = match told {
        Ok(told) if told.len() == expected.len() => told,
        Ok(told) => return tally.differs(format!("{}: {} fields told, {} expected", name, told.len(), expected.len())),
        Err(error) => return tally.differs(format!("{}: the error {}", name, error as i64)),
    };
    for (k, (told, (description, before))) in (0..).zip(told.iter().zip(&expected)) {
        let left_out = left_out(description, *before);
        let (found, shows) = differences(told, file, k, description, &left_out);
        tally.fields += 1;
        tally.on_lambert += u64::from(matches!(description.grid.kind, GridKind::Lambert(_)));
        tally.points += told.values.len() as u64;
        left_out.names.iter().for_each(|known| tally.know(known, left_out.names.len() == 1, shows));
        if !found.is_empty() {
            tally.differs(format!("{}, field {}: {}", name, k, found.join("; ")));
        }
    }
}

/// A file at full size and so many valid files of a seed, through the program that calls ecCodes.
pub fn eccodes(full: &str, seed: u64, count: u64, command: &[String]) -> io::Result<bool> {
    let random = &mut Random::new(seed);
    let mut files = vec![fs::read(full)?];
    files.extend((0..count).map(|_| valid(random)));
    let mut process = Command::new(&command[0]).args(&command[1..]).stdin(Stdio::piped()).stdout(Stdio::piped()).stderr(Stdio::null()).spawn()?;
    let (mut input, mut output) = (process.stdin.take().unwrap(), BufReader::new(process.stdout.take().unwrap()));
    let framed: Vec<u8> = files.iter().flat_map(|file| [&(file.len() as u64).to_be_bytes()[..], file].concat()).collect();
    let writing = thread::spawn(move || input.write_all(&framed));
    let mut tally = Tally::default();
    for (index, file) in files.iter().enumerate() {
        let name = if index == 0 { full.to_string() } else { format!("file {} of seed {}", index - 1, seed) };
        compare(file, fields(&mut output)?, &name, &mut tally);
    }
    let written = writing.join().expect("the writing thread");
    let ended = process.wait()?;
    for (name, (concerned, alone, shown)) in &tally.known {
        println!("  known: {}: {} times, {} of them alone, and in {} of these it shows", name, concerned, alone, shown);
    }
    let Tally { files, fields, on_lambert, points, wrong, .. } = tally;
    println!("seed {}: {} valid files, {} fields, {} of them on Lambert grids, against ecCodes", seed, files, fields, on_lambert);
    println!("seed {}: {} points, {} fields differ otherwise", seed, points, wrong);
    Ok(written.is_ok() && ended.success() && wrong == 0 && on_lambert > 0 && fields > on_lambert)
}
