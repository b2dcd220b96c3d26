//! Random stores and budgets for a script.

use super::rng::Rng;
use crate::judge::Script;
use crate::level::Level;
use crate::types::Type;

/// Values and marks.
pub type Store = (Vec<i64>, Vec<u8>);

/// A store for a script. Most have its cell count, and most are in range.
pub fn store(seed: u64, script: &Script) -> Store {
    let mut rng = Rng::new(seed ^ 1_937_010);
    let cells = script.world.cells;
    let (mut values, mut marks) = match rng.below(10) {
        0..=2 => (vec![0; cells], vec![0; cells]),
        3..=6 => defined(script, 100, &mut rng),
        7 | 8 if script.level.has(Level::COPIES) => all_but_one(script, &mut rng),
        _ => {
            let share = 10 + rng.below(85);
            defined(script, share, &mut rng)
        }
    };
    match rng.below(20) {
        0 => lengths(&mut values, &mut marks, &mut rng),
        1 | 2 => fault(&mut values, &mut marks, &mut rng),
        _ => {}
    }
    (values, marks)
}

/// A store in which about so many of a hundred cells are defined.
fn defined(script: &Script, share: usize, rng: &mut Rng) -> Store {
    let mut store = (Vec::new(), Vec::new());
    for ty in script.world.cell_types() {
        if !rng.percent(share) {
            store.0.push(0);
            store.1.push(0);
            continue;
        }
        let types = &script.world.types;
        let value = match types.get(ty) {
            Type::Set { base } => {
                let (low, high) = types.bounds(*base).unwrap_or((0, 0));
                (low..=high).filter(|_| rng.percent(50)).map(|member| 1i64 << member).sum()
            }
            _ => within(types.bounds(ty).unwrap_or((0, 0)), rng),
        };
        store.0.push(value);
        store.1.push(1);
    }
    store
}

/// A store with one cell that has no value, behind the first of an array or a record if there is
/// any: at that cell a whole copy is stopped.
fn all_but_one(script: &Script, rng: &mut Rng) -> Store {
    let mut store = defined(script, 100, rng);
    let owners = script.world.owners();
    let behind: Vec<usize> = (1..owners.len()).filter(|i| owners[i - 1] == owners[*i]).collect();
    if !behind.is_empty() {
        let cell = *rng.pick(&behind);
        (store.0[cell], store.1[cell]) = (0, 0);
    }
    store
}

/// A value between bounds: the ends, small ones, any.
fn within((low, high): (i64, i64), rng: &mut Rng) -> i64 {
    match rng.below(6) {
        0 => low,
        1 => high,
        2 => rng.between(low, high),
        _ => rng.between(low.max(-9).min(high), high.min(9).max(low)),
    }
}

/// Makes a list too long or too short.
fn lengths(values: &mut Vec<i64>, marks: &mut Vec<u8>, rng: &mut Rng) {
    match rng.below(5) {
        0 => values.push(0),
        1 => marks.push(0),
        2 => drop(values.pop()),
        3 => drop(marks.pop()),
        _ => {
            values.push(0);
            marks.push(1);
        }
    }
}

/// Spoils one cell.
fn fault(values: &mut [i64], marks: &mut [u8], rng: &mut Rng) {
    if values.is_empty() {
        return;
    }
    let cell = rng.below(values.len());
    match rng.below(4) {
        0 => marks[cell] = *rng.pick(&[2, 3, 128, 255]),
        1 => {
            marks[cell] = 0;
            values[cell] = *rng.pick(&[1, -1, i64::MIN]);
        }
        _ => {
            marks[cell] = 1;
            values[cell] = *rng.pick(&[
                i64::MIN,
                i64::MAX,
                -1,
                2,
                -2_147_483_649,
                2_147_483_648,
                4_294_967_295,
                4_294_967_296,
                32,
                256,
            ]);
        }
    }
}

/// A budget. The largest is given only to a run that is known to end after `ends` steps.
pub fn budget(seed: u64, ends: Option<u32>) -> u32 {
    let mut rng = Rng::new(seed ^ 2_756_840);
    match (rng.below(20), ends) {
        (0, _) => 0,
        (1, _) => 1,
        (2, _) => 2 + rng.below(8) as u32,
        (3, _) => 10 + rng.below(90) as u32,
        (4 | 5, Some(steps)) => u32::MAX - (rng.below(2) as u32) * (u32::MAX - steps),
        (6, Some(steps)) => steps.saturating_sub(1),
        (7, Some(steps)) => steps + 1,
        (8, Some(steps)) => rng.below(steps as usize + 1) as u32,
        _ => 10_000 + 10_000 * rng.below(2) as u32,
    }
}
