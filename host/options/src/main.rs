//! Says what is wrong with the options of `./draw`, or nothing.

use options::Request;
use std::process::ExitCode;

fn main() -> ExitCode {
    match Request::from_args() {
        Ok(_) => ExitCode::SUCCESS,
        Err(sentence) => {
            eprintln!("draw: {sentence}");
            ExitCode::from(2)
        }
    }
}
