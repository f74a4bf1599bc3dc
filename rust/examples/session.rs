//! Builds the statements of a document over a session, and then those of further documents, which declare no table. Ends with the first
//! status that is not 0, after the lines before it.

use std::io::Write;
use std::process::ExitCode;
use std::{env, error::Error, fs, io};

use hardieflax::{Hardieflax, HardieflaxError};

fn main() -> ExitCode {
    let Err(error) = run() else {
        return ExitCode::SUCCESS;
    };
    eprintln!("{error}");
    let Some(error) = error.downcast_ref::<HardieflaxError>() else {
        return ExitCode::FAILURE;
    };
    print!("{}", error.answered());
    ExitCode::from(u8::try_from(error.status()).unwrap_or(1))
}

fn run() -> Result<(), Box<dyn Error>> {
    let mut arguments = env::args().skip(1);
    let path = arguments.next().ok_or("usage: session FILE [DOCUMENT..]")?;
    let mut session = Hardieflax::new();
    let mut output = io::stdout();
    output.write_all(session.open(&fs::read(path)?)?.as_bytes())?;
    for document in arguments {
        output.write_all(session.next(document.as_bytes())?.as_bytes())?;
    }
    Ok(())
}
