// An independent model of the mail layer: plays scripts, makes them, and tests itself.

mod bad;
mod bench;
mod blocks;
mod check;
mod cover;
mod damage;
mod ends;
mod layout;
mod mail;
mod make;
mod queues;
mod random;
mod records;
mod run;
mod script;
mod setups;
mod sound;
mod strike;
mod table;
mod traffic;

use std::io::{self, Read, Write};
use std::process::ExitCode;

const USAGE: &str = "model play < script > lines        plays a script as mailplay does
model run < records > lines        runs records as mailrun does
model make setup SEED > script     makes a script of set-ups
model make calls SEED [CALLS] > script
                                   makes a script of so many calls of all kinds, 2000 if not given
model make ends SEED > script      makes a script of letters' ways at the least and greatest settings
model make bad K > script          makes script K at the edge of the format; model count bad tells how many there are
model make records SEED COUNT > records
                                   makes so many records for mailrun, and a short one
model cover < script               shows what a script covers
model check                        tests the model itself
";
const DEFAULT_CALLS: &str = "2000";

fn main() -> ExitCode {
    let args: Vec<String> = std::env::args().skip(1).collect();
    let args: Vec<&str> = args.iter().map(String::as_str).collect();
    match answer(&args) {
        Some((bytes, good)) if io::stdout().write_all(&bytes).is_ok() && good => ExitCode::SUCCESS,
        Some(_) => ExitCode::FAILURE,
        None => {
            eprint!("{USAGE}");
            ExitCode::FAILURE
        }
    }
}

/// What a command prints, and if all is well; none if there is no such command.
fn answer(args: &[&str]) -> Option<(Vec<u8>, bool)> {
    let bytes = match *args {
        ["play"] => script::play(&input()).into_bytes(),
        ["run"] => run::run(&input()).into_bytes(),
        ["make", "setup", seed] => make::setup_script(seed.parse().ok()?),
        ["make", "calls", seed] => make::calls_script(seed.parse().ok()?, DEFAULT_CALLS.parse().ok()?),
        ["make", "calls", seed, calls] => make::calls_script(seed.parse().ok()?, calls.parse().ok()?),
        ["make", "ends", seed] => make::ends_script(seed.parse().ok()?),
        ["make", "bad", k] => bad::make(k.parse().ok()?)?,
        ["count", "bad"] => format!("{}\n", bad::count()).into_bytes(),
        ["make", "records", seed, count] => records::make(seed.parse().ok()?, count.parse().ok()?),
        ["cover"] => cover::cover(&input()).text().into_bytes(),
        ["check"] => {
            let (text, good) = check::check();
            return Some((text.into_bytes(), good));
        }
        _ => return None,
    };
    Some((bytes, true))
}

/// All bytes of standard input.
fn input() -> Vec<u8> {
    let mut bytes = Vec::new();
    // What can't be read is as if it were not there.
    let _ = io::stdin().read_to_end(&mut bytes);
    bytes
}
