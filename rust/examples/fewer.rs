//! Gives a list of matches its days twice, greedily and by Misra and Gries, and prints the list with fewer of them. The
//! matches are read from standard input.

use std::error::Error;
use std::io::Read;
use wulgranite::{fewer_days, greedy_edge_color, misra_gries_edge_color, Saved};

fn main() -> Result<(), Box<dyn Error>> {
    let mut bytes = Vec::new();
    std::io::stdin().read_to_end(&mut bytes)?;
    let Saved { nodes, ends, .. } = Saved::read(&bytes)?;
    let matches = ends.len() / 2;
    let (mut greedy, mut misra_gries) = (vec![0; matches], vec![0; matches]);
    let days = greedy_edge_color(nodes, &ends, &mut greedy)?;
    println!("greedy: {days} days");
    let days = misra_gries_edge_color(nodes, &ends, &mut misra_gries)?;
    println!("Misra and Gries: {days} days");
    for (pair, day) in ends
        .chunks(2)
        .zip(fewer_days(&greedy, &misra_gries, matches))
    {
        println!("{}-{}: day {day}", pair[0], pair[1]);
    }
    Ok(())
}
