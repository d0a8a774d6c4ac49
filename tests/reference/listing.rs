//! The text that the listing program prints.

use crate::tiling::{tile, Field};
use crate::{open, Refusal};

const LONGEST_INPUT: usize = 65_536;

/// The whole output for one input, every line ended by a newline.
pub fn listing(input: &[u8]) -> String {
    if input.len() > LONGEST_INPUT {
        return refused_line(Refusal { number: 18, place: LONGEST_INPUT as u32 });
    }
    let mut fields: Vec<Field<'_>> = Vec::new();
    match tile(input, &mut |field| fields.push(*field)) {
        Err(refusal) => refused_line(refusal),
        Ok(counts) => {
            let lines: String = fields.iter().enumerate().map(|(k, field)| field_line(k, field)).collect();
            format!("{} fields\n{}", counts.fields, lines)
        }
    }
}

fn refused_line(refusal: Refusal) -> String {
    format!("refused {} at {}\n", refusal.number, refusal.place)
}

fn field_line(k: usize, field: &Field<'_>) -> String {
    match open(field) {
        Err(refusal) => format!("{} {}", k, refused_line(refusal)),
        Ok(opened) => {
            let told = opened.description;
            format!(
                "{} {}/{}/{} {} {}x{} {} {}\n",
                k,
                told.discipline,
                told.category,
                told.parameter,
                told.first_surface_type,
                told.grid.ni,
                told.grid.nj,
                told.listed_time().digits(),
                told.n
            )
        }
    }
}
