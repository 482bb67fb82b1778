//! The seams of a grid, found by a call of their own, against the original's searches.

use super::{
    Input, Kind, exact, faulty, faulty_at_tolerances, gaping, gaping_cells, joined_grids, planted,
    seams,
};
use crate::case::case;
use crate::driver::{Compared, Driver};
use crate::inputs::grids::Grid;
use crate::layers::seams::{kind, seam_words};
use crate::random::Random;
use crate::record::{Call, Recorded};
use merlontrispa::{Refusal, Seams, Tolerances, find_seams};

/// A grid whose seams are searched for.
#[derive(Clone)]
pub struct Searched {
    grid: Grid,
    /// As those of an `Input`.
    tolerances: Option<Tolerances>,
}

case!(Searched { grid, tolerances });

impl From<Input> for Searched {
    fn from(input: Input) -> Self {
        let Input {
            grid, tolerances, ..
        } = input;
        Self { grid, tolerances }
    }
}

pub fn compare(driver: &mut Driver) -> Compared {
    let joined = joined_grids().map(|grid| exact(grid).into());
    let name = "find_seams, each joining of up to 4 by 4 cells";
    driver.compare_each(name, joined, library, original)?;
    let kinds: [(_, _, Kind); 5] = [
        ("planted", 100_000, planted),
        ("refusals", 100_000, faulty),
        ("at tolerances, planted", 100_000, gaping),
        ("at tolerances, 255 by 255", 20, largest),
        ("at tolerances, refusals", 100_000, faulty_at_tolerances),
    ];
    for (kind, count, input) in kinds {
        driver.compare(
            &format!("find_seams, {kind}"),
            count,
            |random| input(random).into(),
            library,
            original,
        )?;
    }
    Ok(())
}

pub fn library(input: &Searched) -> Result<Seams, Refusal> {
    let grid = &input.grid;
    let tolerances = input.tolerances.unwrap_or_default();
    find_seams(&grid.numbers, grid.u_steps, grid.v_steps, tolerances)
}

pub fn original(input: &Searched) -> Result<Seams, Refusal> {
    match input.grid.refusal(input.tolerances) {
        Some(refusal) => Err(refusal),
        None => Ok(seams(&input.grid, input.tolerances)),
    }
}

fn largest(random: &mut Random) -> Input {
    gaping_cells(random, 255, 255)
}

impl Searched {
    pub fn recorded(&self) -> Recorded {
        let told = original(self);
        let Tolerances { u, v, line } = self.tolerances.unwrap_or_default();
        let case = Recorded::on_grid(Call::FindSeams, told.err(), &self.grid)
            .at_tolerances(&[u, v, line], told.err(), self.grid.refusal(None))
            .told(told.map(|_| [0, 0]));
        let Ok(Seams { u, v }) = told else {
            return case;
        };
        let by_eps = seams(&self.grid, None);
        case.words(&seam_words(&u))
            .words(&seam_words(&v))
            .reaching(&format!("u {}", kind(u.mapping)))
            .reaching(&format!("v {}", kind(v.mapping)))
            .reaching_if(u.mapping != by_eps.u.mapping, "another u seam than by EPS")
            .reaching_if(v.mapping != by_eps.v.mapping, "another v seam than by EPS")
    }
}

#[cfg(test)]
mod tests {
    use super::*;
    use crate::planted::found;

    /// Searches of v by the tolerance of u, and without a look at that of lines.
    #[test]
    fn wrong_searches_are_found() {
        type Search = fn(&Searched) -> Result<Seams, Refusal>;
        let smallest = |input: Kind, wrong: Search| {
            let input = |random: &mut Random| Searched::from(input(random));
            found(
                |driver| driver.compare("searched", 20_000, input, wrong, original),
                |driver| driver.compare("searched", 20_000, input, library, original),
            )
        };
        let found = smallest(gaping, |input| {
            let told = original(input)?;
            let by_u = |tolerances: Tolerances| Tolerances {
                v: tolerances.u,
                ..tolerances
            };
            let Seams { v, .. } = seams(&input.grid, input.tolerances.map(by_u));
            Ok(Seams { v, ..told })
        });
        let cell = "grid u_steps 1 v_steps 1 numbers";
        assert_eq!(
            found,
            format!("{cell} [ o o o 0.0 0.5 0.0 ] tolerances u 1.0 v 0.5 line 1.0")
        );
        let found = smallest(faulty_at_tolerances, |input| {
            let mut input = input.clone();
            if let Some(tolerances) = &mut input.tolerances {
                tolerances.line = 1.0;
            }
            original(&input)
        });
        assert_eq!(
            found,
            format!("{cell} [ o o o o ] tolerances u 1.0 v 1.0 line 0.0")
        );
    }
}
