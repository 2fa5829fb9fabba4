//! A site for the tests of a reader in another language: it prints the address of the database, and
//! then does what each line of its standard input asks for, by `Site::serve`.
#[path = "../tests/site/mod.rs"]
mod site;

use site::{OTHER_TABLES, Site};
use std::io::{stdin, stdout};
use std::process::ExitCode;

fn main() -> ExitCode {
    // There is no PostgreSQL: the program has printed that.
    let Some(mut site) = Site::start() else { return ExitCode::from(77) };
    site.sql.run(OTHER_TABLES);
    println!("{}", site.database.address::<String>());
    site.serve(stdin().lock(), stdout().lock());
    ExitCode::SUCCESS
}
