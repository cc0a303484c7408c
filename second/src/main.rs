//! The commands: `book`, `long-list`, `orders`, `script`, `answers`, `list-script`, `list-answers`,
//! `image-script`, `image-answers`, `weave-script` and `weave-answers`.

use second::long_list::MOST_ORDERS;
use second::orders::LONGEST_LIST;
use second::shapes::Shape;
use second::{
    book, image_cases, image_script, list_cases, list_script, long_list, order_counts, script,
    weave_cases, weave_script,
};
use std::io::{self, BufWriter, Read, Write};
use std::process::ExitCode;

const USAGE: &str = "usage: second book
       second long-list SEED ORDERS SHAPE
       second orders
       second script cases
       second script SEED COUNT SHAPE
       second answers
       second list-script cases
       second list-script SEED COUNT SHAPE
       second list-answers
       second image-script cases
       second image-script SEED COUNT SHAPE
       second image-answers
       second weave-script cases
       second weave-script SEED COUNT SHAPE
       second weave-answers
SEED, COUNT and ORDERS (at most 21845) are decimal, SHAPE is sparse, full, deep, primes
or joining";

enum Call {
    Book,
    LongList(u64, usize, Shape),
    Orders,
    Cases,
    Script(Drawn),
    Answers,
    ListCases,
    ListScript(Drawn),
    ListAnswers,
    ImageCases,
    ImageScript(Drawn),
    ImageAnswers,
    WeaveCases,
    WeaveScript(Drawn),
    WeaveAnswers,
}

/// SEED, COUNT and SHAPE.
type Drawn = (u64, u64, Shape);

fn drawn(seed: &str, count: &str, shape: &str) -> Option<Drawn> {
    let (seed, count) = (seed.parse().ok()?, count.parse().ok()?);
    Some((seed, count, Shape::named(shape)?))
}

fn call(arguments: &[String]) -> Option<Call> {
    let words: Vec<&str> = arguments.iter().map(String::as_str).collect();
    match words[..] {
        ["book"] => Some(Call::Book),
        ["long-list", seed, orders, shape] => Some(Call::LongList(
            seed.parse().ok()?,
            orders.parse().ok().filter(|&it| it <= MOST_ORDERS)?,
            Shape::named(shape)?,
        )),
        ["orders"] => Some(Call::Orders),
        ["script", "cases"] => Some(Call::Cases),
        ["script", seed, count, shape] => drawn(seed, count, shape).map(Call::Script),
        ["answers"] => Some(Call::Answers),
        ["list-script", "cases"] => Some(Call::ListCases),
        ["list-script", seed, count, shape] => drawn(seed, count, shape).map(Call::ListScript),
        ["list-answers"] => Some(Call::ListAnswers),
        ["image-script", "cases"] => Some(Call::ImageCases),
        ["image-script", seed, count, shape] => drawn(seed, count, shape).map(Call::ImageScript),
        ["image-answers"] => Some(Call::ImageAnswers),
        ["weave-script", "cases"] => Some(Call::WeaveCases),
        ["weave-script", seed, count, shape] => drawn(seed, count, shape).map(Call::WeaveScript),
        ["weave-answers"] => Some(Call::WeaveAnswers),
        _ => None,
    }
}

/// Standard input, up to a limit.
fn input(limit: u64) -> io::Result<Vec<u8>> {
    let mut bytes = Vec::new();
    io::stdin().lock().take(limit).read_to_end(&mut bytes)?;
    Ok(bytes)
}

fn run(call: Call) -> io::Result<()> {
    let mut out = BufWriter::new(io::stdout().lock());
    match call {
        // One byte above the longest list is enough to tell that a list is too long.
        Call::Book => book::print(&input(LONGEST_LIST as u64 + 1)?, &mut out)?,
        Call::LongList(seed, orders, shape) => {
            out.write_all(&long_list::generate(seed, orders, shape))?;
        }
        Call::Orders => order_counts::print(&mut out)?,
        Call::Cases => script::write(&script::cases(), &mut out)?,
        Call::Script((seed, count, shape)) => {
            script::write(&script::generated(seed, count, shape), &mut out)?;
        }
        Call::Answers => script::print_answers(&input(u64::MAX)?, &mut out)?,
        Call::ListCases => list_script::write(&list_cases::cases(), &mut out)?,
        Call::ListScript((seed, count, shape)) => {
            list_script::write(&list_script::generated(seed, count, shape), &mut out)?;
        }
        Call::ListAnswers => list_script::print_answers(&input(u64::MAX)?, &mut out)?,
        Call::ImageCases => image_script::write(&image_cases::cases(), &mut out)?,
        Call::ImageScript((seed, count, shape)) => {
            image_script::write(&image_script::generated(seed, count, shape), &mut out)?;
        }
        Call::ImageAnswers => image_script::print_answers(&input(u64::MAX)?, &mut out)?,
        Call::WeaveCases => weave_script::write(&weave_cases::cases(), &mut out)?,
        Call::WeaveScript((seed, count, shape)) => {
            weave_script::write(&weave_script::generated(seed, count, shape), &mut out)?;
        }
        Call::WeaveAnswers => weave_script::print_answers(&input(u64::MAX)?, &mut out)?,
    }
    out.flush()
}

fn main() -> ExitCode {
    let arguments: Vec<String> = std::env::args().skip(1).collect();
    let Some(call) = call(&arguments) else {
        eprintln!("{USAGE}");
        return ExitCode::from(2);
    };
    match run(call) {
        Ok(()) => ExitCode::SUCCESS,
        Err(error) => {
            eprintln!("second: {error}");
            ExitCode::FAILURE
        }
    }
}
