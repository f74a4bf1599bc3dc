//! Answers documents over one session, and prints how many seconds the calls took.
//!
//! timed SCHEMA DOCUMENTS LINES: SCHEMA is a file with a document, DOCUMENTS one with a document that declares no table on each line, and
//! LINES is where the answers go.

use std::env;
use std::error::Error;
use std::fs::{self, File};
use std::io::{BufWriter, Write};
use std::time::{Duration, Instant};

use hardieflax::Hardieflax;

fn main() -> Result<(), Box<dyn Error>> {
    let arguments: Vec<String> = env::args().skip(1).collect();
    let [schema, documents, lines] = &arguments[..] else {
        return Err("usage: timed SCHEMA DOCUMENTS LINES".into());
    };
    let documents = fs::read_to_string(documents)?;
    let mut lines = BufWriter::new(File::create(lines)?);
    let mut session = Hardieflax::new();
    session.open(&fs::read(schema)?)?;
    let mut taken = Duration::ZERO;
    for document in documents.lines() {
        let began = Instant::now();
        let answer = session.next(document.as_bytes())?;
        taken += began.elapsed();
        lines.write_all(answer.as_bytes())?;
    }
    lines.flush()?;
    println!("{:.4}", taken.as_secs_f64());
    Ok(())
}
