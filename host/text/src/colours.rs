//! How dark each cell of the grid is: by its share of the penalties.

use crate::report::{Broken, Opened};
use std::collections::{BTreeSet, HashMap};

/// A cell of the grid: team and slot.
pub type Cell = (usize, usize);

/// What a broken constraint lays on a cell.
#[derive(Clone, Copy)]
pub struct Part {
    /// The constraint's place in the list of broken ones.
    pub place: usize,
    hard: bool,
    share: f64,
}

/// The broken constraints that a cell has a part in, and its colour.
pub struct Mark {
    /// Those of the colour first, the highest share first.
    pub parts: Vec<Part>,
    pub hard: bool,
    /// 3 for the cells on which the most falls, 1 for those of constraints that concern much of the grid.
    pub step: u8,
}

/// As many cells may be dark in the smallest season.
const FEW_CELLS: usize = 12;

/// The marks of all cells that broken constraints are about. A constraint's penalty falls on its cells in equal shares. So a constraint on
/// two games stands out from one that concerns all.
pub fn marks(opened: &Opened, broken: &[Broken]) -> HashMap<Cell, Mark> {
    let parts = parts(opened, broken);
    let grid = opened.season.teams * opened.season.slots;
    let loads = [true, false].map(|hard| {
        let mut loads: Vec<f64> = parts.values().map(|parts| load(parts, hard)).filter(|&load| load > 0.0).collect();
        loads.sort_by(|one, other| other.total_cmp(one));
        loads
    });
    let mark = |mut parts: Vec<Part>| {
        let [of_hard, of_soft] = [true, false].map(|hard| step(load(&parts, hard), &loads[usize::from(!hard)], grid));
        let hard = of_hard >= of_soft;
        parts.sort_by(|one, other| (one.hard != hard).cmp(&(other.hard != hard)).then(other.share.total_cmp(&one.share)));
        Mark { parts, hard, step: of_hard.max(of_soft) }
    };
    parts.into_iter().map(|(cell, parts)| (cell, mark(parts))).collect()
}

fn parts(opened: &Opened, broken: &[Broken]) -> HashMap<Cell, Vec<Part>> {
    let mut parts: HashMap<Cell, Vec<Part>> = HashMap::new();
    for (place, b) in broken.iter().enumerate() {
        let hard = opened.season.constraints[b.number].hard;
        let findings = b.deviations.iter().flat_map(|deviation| &deviation.findings);
        let cells: BTreeSet<Cell> = findings.flat_map(|finding| finding.cells.iter().copied()).collect();
        let share = b.penalty as f64 / cells.len() as f64;
        cells.into_iter().for_each(|cell| parts.entry(cell).or_default().push(Part { place, hard, share }));
    }
    parts
}

/// All that hard (or soft) constraints lay on a cell.
fn load(parts: &[Part], hard: bool) -> f64 {
    parts.iter().filter(|part| part.hard == hard).map(|part| part.share).sum()
}

/// How dark a cell is: by how many cells have as much or more on them. So the dark ones are always few.
fn step(load: f64, loads: &[f64], grid: usize) -> u8 {
    let as_much = loads.partition_point(|&other| other >= load * (1.0 - 1e-9));
    match as_much {
        _ if load == 0.0 => 0,
        few if few <= FEW_CELLS.max(grid / 12) => 3,
        some if some <= 2 * FEW_CELLS.max(grid / 6) => 2,
        _ => 1,
    }
}
