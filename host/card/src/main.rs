//! The command `card`: see the library beside.

use card::Arguments;
use std::process::ExitCode;

fn main() -> ExitCode {
    match card::run(Arguments::new(std::env::args_os().skip(1))) {
        Ok(()) => ExitCode::SUCCESS,
        Err(trouble) => {
            card::tell(&trouble);
            trouble.status()
        }
    }
}
