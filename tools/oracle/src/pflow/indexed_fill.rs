//! Fills an `IndexedModel` from a sheet's rows; a child of its module, whose
//! fields it writes.

use super::{Arcs, Cond, IndexedModel};

/// One transition's rows: (place, weight), and (place, d, c) for `cap`.
pub struct Rows<'a> {
    pub ins: &'a [(usize, i64)],
    pub outs: &'a [(usize, i64)],
    pub reads: &'a [(usize, i64)],
    pub stops: &'a [(usize, i64)],
    pub caps: &'a [(usize, i64, i64)],
    pub void: bool,
}

impl IndexedModel {
    pub fn from_rows(places: usize, rows: &[Rows]) -> Self {
        let mut conds = vec![vec![]; places];
        let mut touched = vec![];
        let mut arcs = vec![];
        for (t, r) in rows.iter().enumerate() {
            if !r.void {
                for &(p, w) in r.ins.iter().chain(r.reads) {
                    conds[p].push((t, Cond::AtLeast(w)));
                }
                for &(p, w) in r.stops {
                    conds[p].push((t, Cond::Below(w)));
                }
                for &(p, d, c) in r.caps {
                    conds[p].push((t, Cond::Capped(d, c)));
                }
            }
            let changed = |p: &usize| r.ins.iter().chain(r.outs).any(|x| x.0 == *p);
            touched.push((0..places).filter(changed).collect());
            arcs.push(Arcs {
                inputs: r.ins.to_vec(),
                outputs: r.outs.to_vec(),
                reads: r.reads.to_vec(),
                inhibitors: r.stops.to_vec(),
                capacities: r.caps.to_vec(),
                invalid: r.void,
            });
        }
        IndexedModel {
            places: (0..places).map(|p| format!("p{p}")).collect(),
            transitions: (0..rows.len()).map(|t| format!("t{t}")).collect(),
            arcs,
            conds,
            touched,
        }
    }

    /// The same model with a condition on a place that does not exist.
    /// Among the walks only the counted one reads `conds`, and it panics
    /// there: so a call tells whether it fell back to counts.
    pub fn without_counts(mut self) -> Self {
        self.conds.push(vec![(0, Cond::AtLeast(1))]);
        self
    }
}
