//! What is told about one field.

use crate::calendar::Time;
use crate::packing::Representation;
use crate::sections::{span_east, Identification, ProductDefinition, FULL_TURN};
use crate::tiling::Field;

/// A corner of the grid, in millionths of a degree.
#[derive(Clone, Copy, PartialEq, Eq, Debug)]
pub struct GridPoint {
    pub latitude: i64,
    pub longitude: u32,
}

impl GridPoint {
    fn numbers(self) -> [i64; 2] {
        [self.latitude, i64::from(self.longitude)]
    }
}

/// The grid of section 3: what every grid has, and what only its kind has. The radius is in metres.
#[derive(Clone, Copy, PartialEq, Eq, Debug)]
pub struct Grid {
    pub earth_code: u8,
    pub radius: u32,
    pub ni: u32,
    pub nj: u32,
    pub first: GridPoint,
    pub kind: GridKind,
}

#[derive(Clone, Copy, PartialEq, Eq, Debug)]
pub enum GridKind {
    Degrees(Degrees),
    Lambert(Lambert),
}

/// What a grid in degrees has of its own.
#[derive(Clone, Copy, PartialEq, Eq, Debug)]
pub struct Degrees {
    pub last: GridPoint,
    pub di: u32,
    pub dj: u32,
}

/// What a Lambert grid has of its own: angles in millionths of a degree, and lengths on its sheet in thousandths of a metre.
#[derive(Clone, Copy, PartialEq, Eq, Debug)]
pub struct Lambert {
    pub stated_latitude: i64,
    pub upright_meridian: u32,
    pub dx: u32,
    pub dy: u32,
    pub cutting_latitudes: [i64; 2],
}

impl Grid {
    pub fn points(&self) -> u64 {
        u64::from(self.ni) * u64::from(self.nj)
    }

    /// Behind Ni and Nj stands the point count. A Lambert grid has neither a last point nor steps in degrees, and zeros stand in their places.
    fn numbers(&self) -> Vec<i64> {
        let sizes = [i64::from(self.earth_code), i64::from(self.radius), i64::from(self.ni), i64::from(self.nj), self.points() as i64];
        let of_its_kind = match self.kind {
            GridKind::Degrees(degrees) => degrees.numbers(),
            GridKind::Lambert(_) => [0; 4],
        };
        [&sizes[..], &self.first.numbers(), &of_its_kind].concat()
    }

    /// The numbers behind all others of a description, which only a field on a Lambert grid has.
    fn last_numbers(&self) -> Vec<i64> {
        match self.kind {
            GridKind::Degrees(_) => vec![],
            GridKind::Lambert(lambert) => lambert.numbers().to_vec(),
        }
    }

    /// The latitude and longitude of the point in a column and a row. Both are worked out from the first point and the last, not from Di and Dj.
    pub fn place(&self, degrees: Degrees, column: u64, row: u64) -> (i64, u32) {
        let south = distance(self.first.latitude - degrees.last.latitude, row, self.nj);
        let east = distance(span_east(self.first, degrees.last), column, self.ni);
        let longitude = (i64::from(self.first.longitude) + east) % FULL_TURN;
        (self.first.latitude - south, longitude as u32)
    }
}

impl Degrees {
    fn numbers(self) -> [i64; 4] {
        let [latitude, longitude] = self.last.numbers();
        let [di, dj] = [self.di, self.dj].map(i64::from);
        [latitude, longitude, di, dj]
    }
}

impl Lambert {
    /// The first number is the template's.
    fn numbers(self) -> [i64; 7] {
        let [dx, dy] = [self.dx, self.dy].map(i64::from);
        let [cutting, other_cutting] = self.cutting_latitudes;
        [30, self.stated_latitude, i64::from(self.upright_meridian), dx, dy, cutting, other_cutting]
    }

    /// How far to the right of the first point and how far below it the point in a column and a row lies on the sheet.
    pub fn place(self, column: u64, row: u64) -> (i64, i64) {
        let (right, down) = (column * u64::from(self.dx), row * u64::from(self.dy));
        (right as i64, down as i64)
    }
}

/// How far the row or column of an index lies from the first, where so many divide a span evenly: the nearest whole number, halves up.
fn distance(span: i64, index: u64, count: u32) -> i64 {
    if count == 1 {
        return 0;
    }
    let steps = i128::from(count) - 1;
    let shares = i128::from(index) * i128::from(span);
    let (whole, rest) = (shares / steps, shares % steps);
    let nearest = if 2 * rest >= steps { whole + 1 } else { whole };
    nearest as i64
}

/// A level: the scaled level divided by ten to the factor.
#[derive(Clone, Copy, PartialEq, Eq, Debug)]
pub struct Level {
    pub factor: i64,
    pub scaled_level: u32,
}

/// That there is a level (1) or none (0), its factor, and the scaled level.
fn level_numbers(level: Option<Level>) -> [i64; 3] {
    level.map_or([0, 0, 0], |Level { factor, scaled_level }| [1, factor, i64::from(scaled_level)])
}

#[derive(Clone, Copy, PartialEq, Eq, Debug)]
pub enum IntervalKind {
    Mean,
    Sum,
}

#[derive(Clone, Copy, PartialEq, Eq, Debug)]
pub enum Product {
    Instant,
    Interval { end: Time, kind: IntervalKind },
}

impl Product {
    /// The template's number, the end of the interval and its kind.
    fn numbers(self) -> Vec<i64> {
        match self {
            Product::Instant => vec![0; 8],
            Product::Interval { end, kind } => {
                let kind_number = match kind {
                    IntervalKind::Mean => 0,
                    IntervalKind::Sum => 1,
                };
                [&[8], &time_numbers(end)[..], &[kind_number]].concat()
            }
        }
    }
}

/// The file places where the sections in force start.
#[derive(Clone, Copy, PartialEq, Eq, Debug)]
pub struct SectionStarts {
    pub section_1: u32,
    pub section_3: u32,
    pub section_4: u32,
    pub section_5: u32,
    pub section_6: u32,
    pub section_7: u32,
}

/// All that a description holds; `r` is the single's four octets as a number, `bits` is octet 20 of section 5.
#[derive(Clone, Copy, PartialEq, Eq, Debug)]
pub struct Description {
    pub discipline: u8,
    pub status: u8,
    pub reference_time: Time,
    pub grid: Grid,
    pub category: u8,
    pub parameter: u8,
    pub process_kind: u8,
    pub first_surface_type: u8,
    pub level: Option<Level>,
    pub product: Product,
    pub valid_time: Time,
    pub n: u32,
    pub r: u32,
    pub e: i64,
    pub d: i64,
    pub bits: u8,
    pub data_template: u16,
    pub bitmap_indicator: u8,
    pub starts: SectionStarts,
}

impl Description {
    pub(crate) fn of(
        field: &Field<'_>,
        identification: Identification,
        grid: Grid,
        product: ProductDefinition,
        representation: Representation,
    ) -> Description {
        Description {
            discipline: field.discipline,
            status: identification.status,
            reference_time: identification.reference_time,
            grid,
            category: product.category,
            parameter: product.parameter,
            process_kind: product.process_kind,
            first_surface_type: product.first_surface_type,
            level: product.level,
            product: product.product,
            valid_time: product.valid_time,
            n: representation.n,
            r: representation.r,
            e: representation.e,
            d: representation.d,
            bits: representation.bits,
            data_template: representation.data_template,
            bitmap_indicator: field.sections[6].octet(6),
            starts: starts(field),
        }
    }

    /// The time the listing prints: an interval's end, an instant's valid time.
    pub fn listed_time(&self) -> Time {
        match self.product {
            Product::Instant => self.valid_time,
            Product::Interval { end, .. } => end,
        }
    }

    /// The whole description as the numbers that C is given: 53 on a grid in degrees, and 60 on a Lambert grid.
    pub fn numbers(&self) -> Vec<i64> {
        let mut numbers = vec![i64::from(self.discipline), i64::from(self.status)];
        numbers.extend(time_numbers(self.reference_time));
        numbers.extend(self.grid.numbers());
        numbers.extend([self.category, self.parameter, self.process_kind, self.first_surface_type].map(i64::from));
        numbers.extend(level_numbers(self.level));
        numbers.extend(self.product.numbers());
        numbers.extend(time_numbers(self.valid_time));
        numbers.extend([i64::from(self.n), i64::from(self.r), self.e, self.d]);
        numbers.extend([i64::from(self.bits), i64::from(self.data_template), i64::from(self.bitmap_indicator)]);
        let starts = &self.starts;
        numbers.extend([starts.section_1, starts.section_3, starts.section_4, starts.section_5, starts.section_6, starts.section_7].map(i64::from));
        numbers.extend(self.grid.last_numbers());
        numbers
    }
}

fn time_numbers(time: Time) -> [i64; 6] {
    time.numbers().map(|number| number as i64)
}

fn starts(field: &Field<'_>) -> SectionStarts {
    SectionStarts {
        section_1: field.sections[1].start,
        section_3: field.sections[3].start,
        section_4: field.sections[4].start,
        section_5: field.sections[5].start,
        section_6: field.sections[6].start,
        section_7: field.sections[7].start,
    }
}
