//! Paths, resolved one by one.

use crate::answer::Answer;
use crate::arguments::Query;
use crate::output::{Failure, Output};
use crate::{asked, explain, input};
use ventolaire::{Handle, Table};

pub fn run(query: &Query, output: &mut Output) -> Result<(), Failure> {
    let image = input::image(&query.image)?;
    let table = explain::table(&image);
    let answer = |path: &[u8]| match table {
        Ok(table) => table.resolve_raw(handle(query, &table), path, &query.how).into(),
        Err(broken) => Answer::from(broken),
    };
    asked::answer(&query.paths, answer, output)
}

fn handle(query: &Query, table: &Table) -> Handle {
    let handle = query.handle.map_or(table.root(), Handle::from);
    Handle { mark: query.mark, ..handle }
}
