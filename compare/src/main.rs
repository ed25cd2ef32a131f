//! Compares Troymantle with the Rust code that it ports.

mod answers;
mod bare_walk;
mod bench;
mod broken_sheets;
mod case;
mod files_to_try;
mod generators;
#[cfg(feature = "ours")]
mod guarded;
mod library;
mod link;
mod misreadings;
mod model;
mod one_mark;
mod options;
mod oracle;
mod place;
mod random;
mod record;
mod recorded;
mod run;
mod self_test;
mod sheet;
mod show;
mod shrink;
mod side;
mod step;

use options::Options;
use side::Side;
use std::process::ExitCode;

fn main() -> ExitCode {
    let arguments: Vec<String> = std::env::args().skip(1).collect();
    match dispatch(&arguments) {
        Ok(()) => ExitCode::SUCCESS,
        Err(message) => {
            eprintln!("{message}");
            ExitCode::FAILURE
        }
    }
}

const SELF_TEST_CASES: u64 = 200_000;

fn help() -> String {
    let generators: Vec<String> =
        generators::NAMES.iter().map(|(name, _, words)| format!("                    {name:11} {words}")).collect();
    format!(
        "Compares Troymantle with the Rust code that it ports.

compare run         compares the answers of many parse calls; stops at the first difference and makes it small.
                    Without our library it compares the original with the model of 01 that derives what the original
                    does not keep, and then runs the self-test.
    --cases N       how many cases (100000)
    --seed S        another seed gives other random cases (1)
    --first I       the number of the first case (0)
    --generator G   one of (mix)
{}
compare link        compares the answers of many link calls, and hand-made broken sheets and maps
    --cases N       how many files and maps (20000)
    --seed S        (1)
    --first I       the number of the first case (0)
compare step        compares runs over texts with the original's lexer loop and with the run machine of 01, call by call,
                    and hand-made starts, runs, sheets and texts
    --cases N       how many runs (20000)
    --seed S        (1)
    --first I       the number of the first run (0)
compare place       compares lines and columns of offsets, and the way back, with 02's words, and with the original's
                    NewlineCache where both mean the same
    --cases N       how many sources (20000)
    --seed S        (1)
    --first I       the number of the first source (0)
compare self-test   checks 01's files to try, and that the cases notice every deliberate misreading of 01
    --cases N       how many cases at most (200000)
    --seed S        (1)
compare record      writes a sample of expected answers for the program `replay`
    --output FILE   (crates/replay/data/answers)
    --seed S        (1)
compare check-record
                    checks that recorded answers are the expected ones, and ours where our library is linked
    --input FILE    (crates/replay/data/answers)
compare bench [WORDS]
                    prints the original's times, and ours beside them where our library is built; of the shapes whose name
                    contains one of the words, or of all
    --layouts N     our code lies at so many places in turn, 16 bytes apart (8)
    --library FILE  another static library in the place of ours (target/staticlib/libtroymantle.a)
    --before FILE   a static library with today's calls to compare it with in the same run
    --plot FILE     where the plot of the growth is written, if all of it is timed (target/bench/growth.svg)
compare count [WORDS]
                    prints the instructions a call of the same shapes, counted by valgrind's callgrind; --library and --before
                    as for bench
compare once SHAPE  does a shape once, by the original or by the shared object --library FILE: what count runs under valgrind
tools/compare test  runs the unit tests of this program and looks for warnings
compare --help      prints this",
        generators.join("\n")
    )
}

fn dispatch(arguments: &[String]) -> Result<(), String> {
    oracle::silence_panics_of_original();
    let Some((command, rest)) = arguments.split_first() else {
        return Err(help());
    };
    match command.as_str() {
        "run" => {
            let options = Options::read(rest, &["--cases", "--seed", "--first", "--generator"])?;
            let options = run::Options {
                generator: options.generator()?,
                seed: options.number("--seed", 1)?,
                first: options.number("--first", 0)?,
                cases: options.number("--cases", 100_000)?,
            };
            let side = our_side();
            run::run(&options, side.as_deref())?;
            match side {
                Some(_) => Ok(()),
                None => self_test::self_test(options.seed, SELF_TEST_CASES, false),
            }
        }
        "link" => {
            let options = Options::read(rest, &["--cases", "--seed", "--first"])?;
            link::run(options.number("--seed", 1)?, options.number("--first", 0)?, options.number("--cases", 20_000)?)
        }
        "step" => {
            let options = Options::read(rest, &["--cases", "--seed", "--first"])?;
            step::run(options.number("--seed", 1)?, options.number("--first", 0)?, options.number("--cases", 20_000)?)
        }
        "place" => {
            let options = Options::read(rest, &["--cases", "--seed", "--first"])?;
            place::run(options.number("--seed", 1)?, options.number("--first", 0)?, options.number("--cases", 20_000)?)
        }
        "self-test" => {
            let options = Options::read(rest, &["--cases", "--seed"])?;
            files_to_try::check()?;
            self_test::self_test(options.number("--seed", 1)?, options.number("--cases", SELF_TEST_CASES)?, true)
        }
        "record" => {
            let options = Options::read(rest, &["--output", "--seed"])?;
            record::record(&options.answers("--output"), options.number("--seed", 1)?)
        }
        "check-record" => {
            let options = Options::read(rest, &["--input"])?;
            record::check_record(&options.answers("--input"), our_side().as_deref())
        }
        "bench" => {
            let options = Options::read_with_words(rest, &["--layouts", "--library", "--before", "--plot"])?;
            bench::bench(&wanted(options)?)
        }
        "count" => {
            let options = Options::read_with_words(rest, &["--library", "--before"])?;
            bench::count(&wanted(options)?)
        }
        "once" => {
            let options = Options::read_with_words(rest, &["--library"])?;
            bench::once(&options.words.join(" "), options.path("--library").as_deref())
        }
        "--help" | "-h" | "help" => {
            println!("{}", help());
            Ok(())
        }
        other => Err(format!("There is no command `{other}`; `compare --help` lists them.")),
    }
}

fn wanted(options: Options) -> Result<bench::Wanted, String> {
    Ok(bench::Wanted {
        library: options.path("--library"),
        before: options.path("--before"),
        layouts: options.number("--layouts", 8)?,
        plot: options.path("--plot"),
        words: options.words,
    })
}

fn our_side() -> Option<Box<dyn Side>> {
    #[cfg(feature = "ours")]
    return Some(Box::new(guarded::Ours));
    #[cfg(not(feature = "ours"))]
    None
}
