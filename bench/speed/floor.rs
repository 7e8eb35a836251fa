//! What the tables ask of a call before any test, step or answer: plain loops over tables of the archive's shape.
use super::{black_box, built, least, Layout, Patched};

/// Keys and values of all rows' cells.
const CELLS: usize = 6579;
/// The bytes of five tables: include/knobharbor.h has the sizes.
const ROOM: usize = 78_864;

struct Cells {
    keys: [u16; CELLS],
    values: [u64; CELLS],
}

/// The rows, and the cells that they keep once the layout stands.
fn live(l: &Layout) -> (usize, usize) {
    let state = built::<Patched>(l).solver.state();
    (state.rows.len(), state.rows.iter().map(|r| r.cells.len()).sum())
}

fn read(t: &Cells, n: usize) -> u64 {
    let keys = t.keys[..n].iter().fold(0, |a, &k| a | k);
    t.values[..n].iter().fold(u64::from(keys), |a, &x| a | x)
}

fn copy(to: &mut Cells, from: &Cells, n: usize) {
    to.keys[..n].copy_from_slice(&from.keys[..n]);
    to.values[..n].copy_from_slice(&from.values[..n]);
}

/// Microseconds: every live cell read once, every live cell copied once, the room cleared once, and the sum for a drag and its
/// fetch, which are two tests, a copy in, a copy back and a clearing.
pub(super) fn floor(l: &Layout, rounds: usize) {
    let (rows, cells) = live(l);
    let mut tables = Box::new(Cells { keys: [1; CELLS], values: [1; CELLS] });
    let mut other = Box::new(Cells { keys: [0; CELLS], values: [0; CELLS] });
    let mut room = vec![1u64; ROOM / 8];
    let reading = least(rounds, |_| {
        black_box(read(black_box(&tables), cells));
    });
    let copying = least(rounds, |i| {
        tables.values[0] = i as u64;
        copy(black_box(&mut *other), &tables, cells);
    });
    let clearing = least(rounds, |_| black_box(&mut room).fill(0));
    let all = 2.0 * reading + 2.0 * copying + clearing;
    println!(
        "| {} | {} and {} | {:.2} | {:.2} | {:.2} | {:.2} |",
        l.name,
        rows,
        cells,
        reading / 1000.0,
        copying / 1000.0,
        clearing / 1000.0,
        all / 1000.0
    );
}
