//! The source side of a flow.

use crate::run::{away, Lists};
use crate::table::Table;

/// The n marks, 1 at exactly the nodes reachable from s over residual arcs.
pub fn side(table: &Table, flow: &[u32]) -> Vec<u8> {
    let lists = Lists::new(table);
    let mut marks = vec![0; table.n as usize];
    let mut waiting = vec![table.s as usize];
    marks[table.s as usize - 1] = 1;
    while let Some(node) = waiting.pop() {
        for place in lists.of(node) {
            let arc = away(table, flow, node, *place as usize);
            if arc.residual > 0 && marks[arc.far_end - 1] == 0 {
                marks[arc.far_end - 1] = 1;
                waiting.push(arc.far_end);
            }
        }
    }
    marks
}
