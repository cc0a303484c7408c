//! A plan on its way to another recorder. Books the lines of marked case A of document 01, saves the plan's image in
//! the file that is named, reads it back into another plan, and books that one further. Prints the bytes of the file,
//! and the lines that the other plan has.

use gaplinte::{Line, Period, Plan};
use std::error::Error;
use std::{env, fs};

fn main() -> Result<(), Box<dyn Error>> {
    let name = env::args_os().nth(1).ok_or("name a file")?;
    let mut plan = Plan::new();
    for (line, period) in [(1, 4), (2, 6), (3, 8), (4, 12)] {
        plan.open(Line(line), Period(period))?;
    }
    fs::write(&name, plan.to_image())?;
    let image = fs::read(&name)?;
    let bytes: Vec<String> = image.iter().map(|byte| format!("{byte:02x}")).collect();
    println!("{} bytes: {}", bytes.len(), bytes.join(" "));
    let mut other = Plan::from_image(&image)?;
    other.open(Line(5), Period(24))?;
    println!("{other}");
    Ok(())
}
