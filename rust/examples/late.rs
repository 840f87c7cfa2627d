//! The last match of a list comes late, when the others have their days: it gets one, and some of the others may get
//! another. The list is read from standard input.

use std::error::Error;
use std::io::Read;
use wulgranite::{misra_gries_add_edge, misra_gries_edge_color, Saved};

fn main() -> Result<(), Box<dyn Error>> {
    let mut bytes = Vec::new();
    std::io::stdin().read_to_end(&mut bytes)?;
    let Saved { nodes, ends, .. } = Saved::read(&bytes)?;
    let matches = ends.len() / 2;
    let others = matches.saturating_sub(1);
    let (mut before, mut after) = (vec![0; others], vec![0; matches]);
    let days = misra_gries_edge_color(nodes, &ends[..2 * others], &mut before)?;
    println!("before: {others} matches, {days} days");
    let days = misra_gries_add_edge(nodes, &ends, &before, &mut after)?;
    println!("after: {matches} matches, {days} days");
    for (k, day) in after.iter().enumerate() {
        print!("{}-{}: ", ends[2 * k], ends[2 * k + 1]);
        if let Some(stored) = before.get(k) {
            print!("day {stored} before, ");
        }
        println!("day {day} after");
    }
    Ok(())
}
