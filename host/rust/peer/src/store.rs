//! The lent store: rows 10 and 11.

use crate::answer::Refusal;
use crate::world::World;

/// Tests a store against the cells of a script. The line is 0.
pub fn test(world: &World, values: &[i64], marks: &[u8]) -> Result<(), Refusal> {
    if values.len() != world.cells || marks.len() != world.cells {
        return Err(Refusal { number: 10, line: 0 });
    }
    let types = world.cell_types();
    let cells = types.iter().zip(values.iter().zip(marks));
    let mut sound = cells.map(|(ty, (value, mark))| match mark {
        0 => *value == 0,
        1 => world.types.holds(*ty, *value),
        _ => false,
    });
    match sound.all(|sound| sound) {
        true => Ok(()),
        false => Err(Refusal { number: 11, line: 0 }),
    }
}
