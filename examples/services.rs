//! All nine services of the proved library on the text on standard input, from Rust.
//! examples/again builds and runs it.
use std::io::{self, Read, Write};

#[path = "../include/split.rs"]
mod split;

fn print_run(r: split::Run) {
    match (r.number, r.blocked) {
        (split::ANSWERED, 0) => print!("the list runs to its end;"),
        (split::ANSWERED, _) => print!("machine {} blocks after {} events;", r.machine, r.ran),
        (number, _) => return println!("(refused {number} {} {})", r.detail, r.second),
    }
    println!(" machines 0 and 1 stand in {} and {}", r.places[0], r.places[1]);
}

fn main() -> io::Result<()> {
    // One byte more than a text may have, so that a longer one is refused.
    let mut text = Vec::new();
    io::stdin().take(32_769).read_to_end(&mut text)?;
    let mut sheet = [0; 32_768];
    let checked = split::check(&text, &mut sheet);
    if checked.number != split::ANSWERED {
        println!("(refused {} {} {})", checked.number, checked.detail, checked.second);
        std::process::exit(1);
    }
    io::stdout().write_all(&sheet[..checked.size])?;

    let mut steps = [split::Step::default(); 1024];
    let listed = split::steps(&text, &mut steps);
    for step in &steps[..listed.size] {
        let split::Name { from, size, .. } = split::name(&text, step.event.into());
        let name = String::from_utf8_lossy(&text[from..from + size]);
        println!("{} -{name}-> {}", step.source, step.target);
    }

    print_run(split::run(&text, &[0, 1, 2, 2]));
    print_run(split::run(&text, &[]));

    let kept = split::thin(&text);
    print!("{} machines are kept:", kept.size);
    (0..16).filter(|i| kept.machines >> i & 1 == 1).for_each(|i| print!(" {i}"));
    println!();

    let mut merged = [0; 32_768];
    let fewer = split::merge(&text, &mut merged);
    println!("the sheet with places merged has {} bytes", fewer.size);

    let mut quoted = [0; 32_768];
    let priced = split::quote(&text, &mut quoted);
    io::stdout().write_all(&quoted[..priced.size])?;

    let mut again = [0; 32_768];
    let loaded = split::sheet(&sheet[..checked.size], &mut again);
    println!("the sheet is loaded and written again, {} bytes", loaded.size);
    print_run(split::board(&again[..loaded.size], b"ready\nbrake\n"));
    Ok(())
}
