//! A script of calls on descriptors, answered line by line.

use crate::call::Call;
use crate::explain;
use crate::input::{self, Parted};
use crate::output::{self, Failure, Output};
use crate::reply::Reply;
use std::ffi::OsStr;

pub fn run(file: &OsStr, calls: &OsStr, json: bool, output: &mut Output) -> Result<(), Failure> {
    let image = input::image(file)?;
    let mut lines = Parted::open(calls, "line", b'\n')?;
    let mut descriptors = explain::table(&image).map(|table| table.descriptors());
    if let Err(broken) = &descriptors {
        output.refused = true;
        output::tell(format_args!("no descriptor is open, the image is refused: {broken}"));
    }
    while let Some(line) = lines.next().or_else(|error| output.then_fail(error))? {
        let call = Call::read(&line).map_err(|wrong| format!("{}: {wrong}", lines.last()));
        if let Some(call) = call.or_else(|error| output.then_fail(error))? {
            let reply = Reply::to(&call, &mut descriptors);
            output.refused |= reply.result.is_err();
            match json {
                true => output.line(reply.json(lines.number()))?,
                false => output.line(reply)?,
            }
        }
        if lines.waits() {
            output.flush()?;
        }
    }
    Ok(())
}
