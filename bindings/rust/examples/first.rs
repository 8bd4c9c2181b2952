//! Reads a program, checks it, exports it and runs it.
use inet::Status;
use std::io::{self, Read, Write};
use std::process::ExitCode;

fn main() -> io::Result<ExitCode> {
    let mut text = Vec::new();
    io::stdin().read_to_end(&mut text)?;
    let mut output = io::stdout().lock();
    let checked = inet::check(&text);
    output.write_all(&checked.bytes)?;
    if let (_, Some(fault)) = inet::refusal(&text) {
        let place = String::from_utf8_lossy(&text[fault.from..fault.to]);
        writeln!(output, "E{:02} at line {}: {place}", fault.code, fault.line)?;
    }
    if checked.status != Status::Ok {
        return Ok(ExitCode::from(checked.status.code()));
    }
    let exported = inet::export(&text);
    writeln!(output, "exported: {} bytes of JSON", exported.bytes.len())?;
    let run = inet::run(&text, 1000, 4096);
    output.write_all(&run.bytes)?;
    output.flush()?;
    Ok(match run.status {
        Status::Limit => ExitCode::SUCCESS,
        status => ExitCode::from(status.code()),
    })
}
