//! Reads a list of matches from a file, gives it its days and saves it with them.

use std::error::Error;
use wulgranite::{misra_gries_edge_color, Method, Saved};

fn main() -> Result<(), Box<dyn Error>> {
    let arguments: Vec<String> = std::env::args().collect();
    let [_, from, to] = &arguments[..] else {
        return Err("usage: save LIST SAVED".into());
    };
    let mut list = Saved::read(&std::fs::read(from)?)?;
    let matches = list.ends.len() / 2;
    let mut dates = vec![0; matches];
    let days = misra_gries_edge_color(list.nodes, &list.ends, &mut dates)?;
    list.colors = Some(dates);
    list.method = Some(Method::MisraGries);
    let bytes = list.write()?;
    std::fs::write(to, &bytes)?;
    let (clubs, length) = (list.nodes, bytes.len());
    println!("{clubs} clubs, {matches} matches, {days} days: {length} bytes");
    Ok(())
}
