//! Slips that are planted in a second engine, one at a time, and whether what
//! is tried finds them.

use crate::inputs::Rng;
use crate::trial::Trial;
use std::ops::Range;

/// The slips of an engine by their names, all of them in `ALL`.
macro_rules! slips {
    ($($slip:ident)*) => {
        #[derive(Clone, Copy, Debug, PartialEq)]
        enum Slip {
            $($slip,)*
        }

        const ALL: &[Slip] = &[$(Slip::$slip,)*];
    };
}

pub(crate) use slips;

/// Whether some case differs: of those that are always tried, and of so many
/// drawn ones alone.
pub fn found(trial: &dyn Trial, drawn: u64) -> [bool; 2] {
    found_by(&[trial], drawn)
}

/// The same by any of some functions that are tried on the same inputs.
pub fn found_by(trials: &[&dyn Trial], drawn: u64) -> [bool; 2] {
    let shows = |case: u64| trials.iter().any(|trial| trial.agree(case, Rng::at(1, case)).is_none());
    let differs = |mut cases: Range<u64>| cases.any(shows);
    let fixed = trials[0].cases(0);
    [differs(0..fixed), differs(fixed..fixed + drawn)]
}
