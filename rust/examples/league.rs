//! A round of a league: which day each match is played on.

fn main() -> Result<(), wulgranite::Refusal> {
    let clubs = ["Ashford", "Brockley", "Cobham", "Dulwich"];
    let matches: [u16; 12] = [0, 1, 2, 3, 0, 2, 1, 3, 0, 3, 1, 2];
    let mut days = [0; 6];
    let count = wulgranite::misra_gries_edge_color(clubs.len(), &matches, &mut days)?;
    println!("{count} days");
    for (pair, day) in matches.chunks(2).zip(days) {
        let (home, away) = (clubs[usize::from(pair[0])], clubs[usize::from(pair[1])]);
        println!("day {day}: {home} against {away}");
    }
    Ok(())
}
