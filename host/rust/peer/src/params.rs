//! The parameters of a `proc` line (Point 1 of document 02; rows 7 to 9).

use std::collections::HashSet;

use crate::faults::Faults;
use crate::scope::{Cell, Variable};
use crate::syntax::Pair;
use crate::world::World;

const PARAMETERS: usize = 8;

impl World {
    /// Judges the list of a `proc` line. All pairs are judged, those past the ceiling too: it is
    /// row 9, and their own faults come before it.
    pub fn parameters(
        &self,
        procedure: &str,
        pairs: &[Pair],
        faults: &mut Faults,
    ) -> Vec<Variable> {
        let mut seen = HashSet::from([procedure]);
        let mut list = Vec::new();
        for (name, ty) in pairs {
            self.fresh(name, faults);
            faults.name |= !seen.insert(name);
            if let Some(ty) = self.type_of(ty, faults) {
                // The list stands before the BODY, so that this is no fitting of kinds inside one.
                faults.rule |= !self.types.is_ordinal(ty) && self.types.base(ty).is_none();
                let cell = Cell::Parameter(self.parameter_cells + list.len());
                list.push(Variable { name: name.clone(), ty, cell });
            }
        }
        faults.limit |= pairs.len() > PARAMETERS || !self.has_room(pairs.len(), pairs.len());
        list
    }
}
