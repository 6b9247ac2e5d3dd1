//! The commands: each gives the bytes of its output.

mod ask;
mod diff;
mod draw;
mod explain;
mod export;
mod import;
mod pool;
mod powers;
mod ramp;
mod show;
mod total;

use crate::calls::Calls;
use crate::failure::{usage, Failure};
use crate::options::{Named, Options};
use crate::table::Table;

pub struct Command {
    pub name: &'static str,
    pub help: &'static str,
    pub options: &'static [Named],
    pub run: fn(&Calls, &Options) -> Result<Vec<u8>, Failure>,
}

pub const COMMANDS: [Command; 10] = [
    show::COMMAND,
    ask::COMMAND,
    ramp::COMMAND,
    total::COMMAND,
    powers::COMMAND,
    import::COMMAND,
    export::COMMAND,
    pool::COMMAND,
    diff::COMMAND,
    draw::COMMAND,
];

// Two tables; standard input is read once.
fn pair(calls: &Calls, options: &Options) -> Result<(Table, Table), Failure> {
    match options.plain(2, 2)? {
        [a, b] if a == "-" && b == "-" => usage("standard input is only one of the tables"),
        paths => Ok((
            Table::read(calls, &paths[0])?,
            Table::read(calls, &paths[1])?,
        )),
    }
}
