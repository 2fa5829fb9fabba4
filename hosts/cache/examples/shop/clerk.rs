//! Who changes prices, by psql.
use crate::acknowledged::Acknowledged;
use crate::{Draws, Found, POPULAR, Place, Way};
use std::io::{BufRead, BufReader, Write};
use std::process::{Child, ChildStdin, ChildStdout, Command, Stdio};
use std::thread;
use std::time::{Duration, Instant};

/// The pause between two prices.
const PAUSE_BETWEEN_PRICES: Duration = Duration::from_millis(100);

/// A process of psql.
pub struct Clerk {
    process: Child,
    input: ChildStdin,
    output: BufReader<ChildStdout>,
    table: &'static str,
    acknowledged: Acknowledged,
    draws: Draws,
}

impl Clerk {
    pub fn start(way: Way, place: &Place) -> Found<Clerk> {
        let mut process = Command::new("psql")
            .args(["--quiet", "--no-psqlrc", "--no-align", "--tuples-only", &place.database])
            .stdin(Stdio::piped())
            .stdout(Stdio::piped())
            .spawn()?;
        let (input, output) = (process.stdin.take(), process.stdout.take());
        let (input, output) = input.zip(output).ok_or("psql has no input or output")?;
        Ok(Clerk {
            process,
            input,
            output: BufReader::new(output),
            table: way.table(),
            acknowledged: Acknowledged::open(&place.folder, way)?,
            draws: Draws(0),
        })
    }

    /// Changes prices of popular products until then.
    pub fn work_until(&mut self, end: Instant) -> Found<()> {
        while Instant::now() < end {
            let (table, number) = (self.table, self.draws.below(POPULAR));
            let update = format!("UPDATE {table} SET price = price + 1 WHERE id = {number}");
            writeln!(self.input, "{update} RETURNING price;")?;
            let mut line = String::new();
            self.output.read_line(&mut line)?;
            self.acknowledged.note_price(number, line.trim_end().parse()?)?;
            thread::sleep(PAUSE_BETWEEN_PRICES);
        }
        Ok(())
    }
}

impl Drop for Clerk {
    fn drop(&mut self) {
        // One that has ended needs no end.
        let _ = self.process.kill();
        let _ = self.process.wait();
    }
}
