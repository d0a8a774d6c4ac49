//! Sections and messages by their octets, from the rules alone. Every number that a section holds is a named field, with the value of an
//! ordinary valid section as its default, so that a case says only what it changes.

/// The largest X, and the largest number that 31 bits hold.
pub const LARGEST: u64 = 2_147_483_647;

/// A number in so many octets, big-endian.
pub fn number(value: u64, octets: usize) -> Vec<u8> {
    assert!(octets == 8 || value >> (8 * octets) == 0, "{} does not fit {} octets", value, octets);
    value.to_be_bytes()[8 - octets..].to_vec()
}

/// A signed number as its sign and its size, so that a set sign with size zero can be said.
#[derive(Clone, Copy)]
pub struct Signed {
    pub negative: bool,
    pub size: u64,
}

impl Signed {
    pub const MINUS_ZERO: Signed = Signed { negative: true, size: 0 };

    /// The sign in the top bit, the size in the rest.
    pub fn octets(self, count: usize) -> Vec<u8> {
        let sign = 1 << (8 * count - 1);
        assert!(self.size < sign, "the size {} does not fit {} octets", self.size, count);
        number(self.size | if self.negative { sign } else { 0 }, count)
    }
}

impl From<i64> for Signed {
    fn from(value: i64) -> Signed {
        Signed { negative: value < 0, size: value.unsigned_abs() }
    }
}

/// A section of a number: its length, its number, and its octets from the sixth on.
pub fn section(number_of_section: u8, body: &[u8]) -> Vec<u8> {
    [&number(5 + body.len() as u64, 4)[..], &[number_of_section], body].concat()
}

#[derive(Clone, Copy)]
pub struct Time {
    pub year: u16,
    pub month: u8,
    pub day: u8,
    pub hour: u8,
    pub minute: u8,
    pub second: u8,
}

impl Time {
    pub fn octets(self) -> Vec<u8> {
        [number(self.year.into(), 2), vec![self.month, self.day, self.hour, self.minute, self.second]].concat()
    }
}

pub struct Section1 {
    pub centre: u16,
    /// Octets 8 to 11, which have no rule.
    pub tables: [u8; 4],
    /// Octet 12.
    pub significance: u8,
    pub reference: Time,
    pub status: u8,
    /// Octet 21, which has no rule.
    pub kind_of_data: u8,
}

impl Default for Section1 {
    fn default() -> Section1 {
        let reference = Time { year: 2017, month: 5, day: 15, hour: 12, minute: 0, second: 0 };
        Section1 { centre: 34, tables: [0, 0, 2, 1], significance: 1, reference, status: 0, kind_of_data: 1 }
    }
}

impl Section1 {
    pub fn octets(&self) -> Vec<u8> {
        let centre = number(self.centre.into(), 2);
        section(1, &[&centre[..], &self.tables, &[self.significance], &self.reference.octets(), &[self.status, self.kind_of_data]].concat())
    }
}

/// A place in millionths of a degree.
#[derive(Clone, Copy)]
pub struct Point {
    pub latitude: Signed,
    pub longitude: u32,
}

impl Point {
    pub fn at(latitude: i64, longitude: u32) -> Point {
        Point { latitude: Signed::from(latitude), longitude }
    }

    fn octets(self) -> Vec<u8> {
        [self.latitude.octets(4), number(self.longitude.into(), 4)].concat()
    }
}

/// Grid template 3.0.
pub struct Section3 {
    pub earth_code: u8,
    /// Octets 16 to 30: the radius of earth code 1 in the first five, and octets without a rule.
    pub earth: [u8; 15],
    pub ni: u32,
    pub nj: u32,
    pub first: Point,
    pub last: Point,
    pub di: u32,
    pub dj: u32,
}

impl Default for Section3 {
    fn default() -> Section3 {
        let (first, last) = (Point::at(36_000_000, 135_000_000), Point::at(35_000_000, 136_000_000));
        Section3 { earth_code: 6, earth: [255; 15], ni: 2, nj: 2, first, last, di: 1_000_000, dj: 1_000_000 }
    }
}

impl Section3 {
    /// Octets 16 to 30 for earth code 1 with a radius in metres; what follows the radius has no rule.
    pub fn earth_of_radius(radius: u32, without_rule: &[u8]) -> [u8; 15] {
        let mut earth = [0; 15];
        earth[1..5].copy_from_slice(&radius.to_be_bytes());
        earth[5..].copy_from_slice(&without_rule[..10]);
        earth
    }

    pub fn octets(&self) -> Vec<u8> {
        let points = number(u64::from(self.ni) * u64::from(self.nj), 4);
        let sizes = [number(self.ni.into(), 4), number(self.nj.into(), 4), vec![0; 4], vec![255; 4]].concat();
        let places = [self.first.octets(), vec![0x30], self.last.octets()].concat();
        let steps = [number(self.di.into(), 4), number(self.dj.into(), 4)].concat();
        section(3, &[&[0], &points[..], &[0; 4], &[self.earth_code], &self.earth, &sizes, &places, &steps, &[0]].concat())
    }
}

/// Grid template 3.30, by default on the Agency's own cone.
pub struct Section3Lambert {
    pub earth_code: u8,
    /// Octets 16 to 30, as in template 3.0.
    pub earth: [u8; 15],
    pub ni: u32,
    pub nj: u32,
    pub first: Point,
    /// Octet 47.
    pub flags: u8,
    pub stated_latitude: Signed,
    pub upright_meridian: u32,
    pub dx: u32,
    pub dy: u32,
    /// Octet 64.
    pub centre: u8,
    /// Octet 65.
    pub scanning: u8,
    pub cutting_latitudes: [Signed; 2],
    /// Octets 74 to 81, which are not judged.
    pub pole: [u8; 8],
}

impl Default for Section3Lambert {
    fn default() -> Section3Lambert {
        Section3Lambert {
            earth_code: 1,
            earth: Section3::earth_of_radius(6_371_000, &[255; 10]),
            ni: 2,
            nj: 2,
            first: Point::at(44_137_789, 102_008_758),
            flags: 0x08,
            stated_latitude: 30_000_000.into(),
            upright_meridian: 140_000_000,
            dx: 5_000_000,
            dy: 4_000_000,
            centre: 0,
            scanning: 0,
            cutting_latitudes: [60_000_000.into(), 30_000_000.into()],
            pole: [255; 8],
        }
    }
}

impl Section3Lambert {
    pub fn octets(&self) -> Vec<u8> {
        let points = number(u64::from(self.ni) * u64::from(self.nj), 4);
        let sizes = [number(self.ni.into(), 4), number(self.nj.into(), 4)].concat();
        let cone = [self.stated_latitude.octets(4), number(self.upright_meridian.into(), 4)].concat();
        let lengths = [number(self.dx.into(), 4), number(self.dy.into(), 4), vec![self.centre, self.scanning]].concat();
        let cut = self.cutting_latitudes.map(|latitude| latitude.octets(4)).concat();
        let before = [&[0], &points[..], &[0, 0, 0, 30], &[self.earth_code], &self.earth, &sizes, &self.first.octets()].concat();
        section(3, &[&before[..], &[self.flags], &cone, &lengths, &cut, &self.pole].concat())
    }
}

#[derive(Clone, Copy)]
pub struct Level {
    pub factor: Signed,
    pub scaled: u32,
}

/// What template 4.8 adds to 4.0.
pub struct Interval {
    pub end: Time,
    /// Octets 43 to 46, which have no rule.
    pub missing: [u8; 4],
    /// Octet 47: mean (0) or sum (1).
    pub kind: u8,
    /// Octet 48, which has no rule.
    pub increments: u8,
    pub unit: u8,
    pub length: u32,
    /// Octets 54 to 58, which have no rule.
    pub increment: [u8; 5],
}

impl Default for Interval {
    fn default() -> Interval {
        let end = Time { year: 2017, month: 5, day: 15, hour: 13, minute: 0, second: 0 };
        Interval { end, missing: [0; 4], kind: 1, increments: 2, unit: 1, length: 1, increment: [255, 0, 0, 0, 0] }
    }
}

impl Interval {
    fn octets(&self) -> Vec<u8> {
        let length = number(self.length.into(), 4);
        [&self.end.octets()[..], &[1], &self.missing, &[self.kind, self.increments, self.unit], &length, &self.increment].concat()
    }
}

/// Product template 4.0, or 4.8 where there is an interval.
pub struct Section4 {
    pub category: u8,
    pub parameter: u8,
    /// Octet 12.
    pub process: u8,
    /// Octets 13 to 17, which have no rule.
    pub processing: [u8; 5],
    pub unit: u8,
    pub forecast: u32,
    pub surface: u8,
    pub level: Option<Level>,
    pub interval: Option<Interval>,
}

impl Default for Section4 {
    fn default() -> Section4 {
        let (processing, level, interval) = ([0, 31, 0, 0, 0], None, None);
        Section4 { category: 0, parameter: 0, process: 2, processing, unit: 1, forecast: 0, surface: 1, level, interval }
    }
}

impl Section4 {
    pub fn octets(&self) -> Vec<u8> {
        let template = if self.interval.is_some() { 8 } else { 0 };
        let level = self.level.map_or(vec![255; 5], |level| [level.factor.octets(1), number(level.scaled.into(), 4)].concat());
        let interval = self.interval.as_ref().map_or(vec![], Interval::octets);
        let forecast = number(self.forecast.into(), 4);
        let product = [self.category, self.parameter, self.process];
        section(4, &[&[0, 0, 0, template], &product[..], &self.processing, &[self.unit], &forecast, &[self.surface], &level, &[255; 6], &interval].concat())
    }
}

/// What template 5.3 adds to 5.0, from octet 22 on.
pub struct Groups {
    /// Octets 24 to 31, which are not judged.
    pub substitutes: [u8; 8],
    pub count: u32,
    pub width_reference: u8,
    pub width_bits: u8,
    pub length_reference: u32,
    pub length_increment: u8,
    pub last_length: u32,
    pub length_bits: u8,
    /// Octet 49, which the rules call w.
    pub extra_octets: u8,
}

impl Default for Groups {
    fn default() -> Groups {
        let (width_reference, width_bits, length_reference, length_increment, last_length, length_bits) = (0, 0, 0, 1, 0, 0);
        let (substitutes, count, extra_octets) = ([255; 8], 1, 2);
        Groups { substitutes, count, width_reference, width_bits, length_reference, length_increment, last_length, length_bits, extra_octets }
    }
}

impl Groups {
    fn octets(&self) -> Vec<u8> {
        let widths = [&number(self.count.into(), 4)[..], &[self.width_reference, self.width_bits]].concat();
        let lengths = [number(self.length_reference.into(), 4), vec![self.length_increment], number(self.last_length.into(), 4)].concat();
        [&[1, 0], &self.substitutes[..], &widths, &lengths, &[self.length_bits, 2, self.extra_octets]].concat()
    }
}

/// R by the four octets of the single, E and D.
#[derive(Clone, Copy)]
pub struct Scaling {
    pub r: u32,
    pub e: Signed,
    pub d: Signed,
}

impl Scaling {
    pub fn of(r: f32, e: i64, d: i64) -> Scaling {
        Scaling { r: r.to_bits(), e: e.into(), d: d.into() }
    }
}

/// Data template 5.0, or 5.3 where there are groups.
pub struct Section5 {
    /// N.
    pub count: u32,
    pub scaling: Scaling,
    /// Octet 20.
    pub bits: u8,
    pub groups: Option<Groups>,
}

impl Section5 {
    pub fn octets(&self) -> Vec<u8> {
        let template = if self.groups.is_some() { 3 } else { 0 };
        let scaling = [number(self.scaling.r.into(), 4), self.scaling.e.octets(2), self.scaling.d.octets(2)].concat();
        let groups = self.groups.as_ref().map_or(vec![], Groups::octets);
        section(5, &[&number(self.count.into(), 4)[..], &[0, template], &scaling, &[self.bits, 0], &groups].concat())
    }
}

/// Bits put one after another from the top bit of the first octet on.
#[derive(Default)]
pub struct Bits {
    octets: Vec<u8>,
    filled: usize,
}

impl Bits {
    pub fn put(&mut self, value: u64, bits: u8) {
        assert!(value >> bits == 0, "{} does not fit {} bits", value, bits);
        for bit in (0..bits).rev() {
            if self.filled % 8 == 0 {
                self.octets.push(0);
            }
            let marked = ((value >> bit) & 1) as u8;
            self.octets[self.filled / 8] |= marked << (7 - self.filled % 8);
            self.filled += 1;
        }
    }

    /// The octets, with the spare bits of the last one taken from the low bits of a given octet.
    pub fn finished(mut self, spare: u8) -> Vec<u8> {
        let used = self.filled % 8;
        if used != 0 {
            self.octets[self.filled / 8] |= spare & (0xff >> used);
        }
        self.octets
    }
}

/// Numbers of so many bits each, with no gap between them.
#[derive(Clone, Default)]
pub struct PackedRun {
    pub numbers: Vec<u64>,
    pub bits: u8,
}

impl PackedRun {
    pub fn of(numbers: &[u64], bits: u8) -> PackedRun {
        PackedRun { numbers: numbers.to_vec(), bits }
    }
}

/// Packed runs one after another with no gap, and the spare bits at their end.
pub fn packed(runs: &[PackedRun], spare: u8) -> Vec<u8> {
    let mut bits = Bits::default();
    for (value, width) in runs.iter().flat_map(|run| run.numbers.iter().map(move |value| (*value, run.bits))) {
        bits.put(value, width);
    }
    bits.finished(spare)
}

/// A bitmap's octets.
pub fn bitmap(present: &[bool], spare: u8) -> Vec<u8> {
    let marks: Vec<u64> = present.iter().map(|present| u64::from(*present)).collect();
    packed(&[PackedRun { numbers: marks, bits: 1 }], spare)
}

pub fn section6(indicator: u8, bitmap: &[u8]) -> Vec<u8> {
    section(6, &[&[indicator], bitmap].concat())
}

/// Section 7 by template 7.0.
pub fn section7(values: &[u64], bits: u8, spare: u8) -> Vec<u8> {
    section(7, &packed(&[PackedRun::of(values, bits)], spare))
}

/// Section 7 by template 7.3: first value, second value and Zmin, what is stored of references, widths and lengths, and the values of each group.
pub struct Section7Groups {
    pub extra_octets: u8,
    pub first: u64,
    pub second: u64,
    pub zmin: Signed,
    pub references: PackedRun,
    pub widths: PackedRun,
    pub lengths: PackedRun,
    pub values: Vec<PackedRun>,
    /// The spare bits behind each of the four runs.
    pub spare: [u8; 4],
}

impl Section7Groups {
    pub fn octets(&self) -> Vec<u8> {
        let w = usize::from(self.extra_octets);
        let start = [number(self.first, w), number(self.second, w), self.zmin.octets(w)].concat();
        let stored = [&self.references, &self.widths, &self.lengths];
        let runs: Vec<u8> = stored.iter().zip(self.spare).flat_map(|(run, spare)| packed(&[(*run).clone()], spare)).collect();
        section(7, &[start, runs, packed(&self.values, self.spare[3])].concat())
    }
}

pub struct Message {
    /// Octets 5 and 6, which have no rule.
    pub reserved: [u8; 2],
    pub discipline: u8,
    pub sections: Vec<Vec<u8>>,
}

impl Message {
    pub fn of(sections: Vec<Vec<u8>>) -> Message {
        Message { reserved: [255; 2], discipline: 0, sections }
    }

    pub fn octets(&self) -> Vec<u8> {
        let body = self.sections.concat();
        let length = number(20 + body.len() as u64, 8);
        [&b"GRIB"[..], &self.reserved, &[self.discipline, 2], &length, &body, b"7777"].concat()
    }
}
