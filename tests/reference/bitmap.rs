//! Section 6: which points of a field are present.

use crate::octets::{octets_for, require};
use crate::tiling::Field;

/// The presence of each point, by bitmap or, without one, all present.
#[derive(Clone, Copy)]
pub struct Presence<'a> {
    pub points: u64,
    bitmap: Option<&'a [u8]>,
}

impl Presence<'_> {
    pub fn is_present(&self, point: u64) -> bool {
        match self.bitmap {
            None => true,
            Some(octets) => octets.get((point / 8) as usize).map_or(false, |octet| octet & (0x80 >> (point % 8)) != 0),
        }
    }

    /// Counts the points present, leaving the spare bits of the last octet out.
    pub fn present_points(&self) -> u64 {
        self.present_before(self.points)
    }

    /// Counts the points present before the given one, which is not counted itself.
    pub fn present_before(&self, point: u64) -> u64 {
        let octets = match self.bitmap {
            None => return point,
            Some(octets) => octets,
        };
        let whole_octets = point / 8;
        let in_whole_octets: u64 = octets.iter().take(whole_octets as usize).map(|octet| u64::from(octet.count_ones())).sum();
        let in_the_rest = (whole_octets * 8..point).filter(|before| self.is_present(*before)).count();
        in_whole_octets + in_the_rest as u64
    }
}

/// The presence that the field's own section 6 states, or refers to with indicator 254.
pub fn presence<'a>(field: &Field<'a>, points: u64) -> Option<Presence<'a>> {
    let own = field.sections[6];
    require(own.length() >= 6)?;
    let section_with_bitmap = match own.octet(6) {
        0 => Some(own),
        254 => Some(field.latest_bitmap?),
        255 => None,
        _ => return None,
    };
    require(own.octet(6) == 0 || own.length() == 6)?;
    let bitmap = match section_with_bitmap {
        None => None,
        Some(section) => {
            require(section.length() == 6 + octets_for(points))?;
            Some(section.octets_from(7))
        }
    };
    Some(Presence { points, bitmap })
}
