//! Starts the processes of the shop, gives each way its turns, and shows what they report.
use crate::clerk::Clerk;
use crate::process::Report;
use crate::{Found, PROCESSES, Place, SHELF, Way};
use std::io::{BufRead, BufReader, IsTerminal, Write};
use std::process::{Child, ChildStdin, ChildStdout, Command, Stdio};
use std::thread;
use std::time::{Duration, Instant};

/// How long a turn takes.
const TURN: Duration = Duration::from_secs(2);

/// The processes of one way, and what they have reported.
struct Team {
    way: Way,
    workers: Vec<Worker>,
    clerk: Clerk,
    sum: Report,
    /// How long their turns took until now.
    time: Duration,
}

struct Worker {
    process: Child,
    input: Option<ChildStdin>,
    output: BufReader<ChildStdout>,
}

/// Shows the shop for so long. It fails if a read by krl-cache was stale.
pub fn show(place: &Place, time: Duration) -> Found<()> {
    let mut ways = vec![Way::Krl];
    ways.extend(place.redis.as_ref().map(|_| Way::Redis));
    let start = |way: &Way| Team::start(*way, place);
    let mut teams = ways.iter().map(start).collect::<Found<Vec<_>>>()?;
    let end = Instant::now() + time;
    let mut shown = Shown { is_terminal: std::io::stdout().is_terminal(), lines: 0 };
    while Instant::now() < end {
        for team in 0..teams.len() {
            teams[team].take_turn()?;
            shown.show(&teams)?;
        }
    }
    shown.end(&teams)?;
    let is_stale =
        |team: &Team| team.way == Way::Krl && team.sum.stale_sales + team.sum.stale_prices > 0;
    let is_wrong = teams.iter().any(is_stale);
    teams.into_iter().try_for_each(Team::end)?;
    if is_wrong { Err("krl-cache has answered stale reads".into()) } else { Ok(()) }
}

impl Team {
    fn start(way: Way, place: &Place) -> Found<Team> {
        let start = |number| Worker::start(way, number, place);
        let mut workers = (0..PROCESSES).map(start).collect::<Found<Vec<_>>>()?;
        // Each of them reads everything first.
        workers.iter_mut().try_for_each(|worker| worker.reports().map(drop))?;
        let clerk = Clerk::start(way, place)?;
        Ok(Team { way, workers, clerk, sum: Report::default(), time: Duration::ZERO })
    }

    fn take_turn(&mut self) -> Found<()> {
        let began = Instant::now();
        self.workers.iter_mut().try_for_each(Worker::begin_turn)?;
        let (workers, clerk, sum) = (&mut self.workers, &mut self.clerk, &mut self.sum);
        thread::scope(|scope| {
            let prices = scope.spawn(|| clerk.work_until(began + TURN));
            for worker in workers {
                sum.add(worker.reports()?);
            }
            prices.join().map_err(|_| "who changes prices has panicked")?
        })?;
        self.time += began.elapsed();
        Ok(())
    }

    fn line(&self) -> String {
        let Report { reads, from_memory, sales, stale_sales, stale_prices } = self.sum;
        let name = match self.way {
            Way::Krl => "krl-cache",
            Way::Redis => "Redis in front",
        };
        let percent = match self.way {
            Way::Krl => format!("{:.1} %", percent(from_memory, reads * SHELF)),
            Way::Redis => "-".to_string(),
        };
        let [reads, sales] = [reads, sales].map(|count| a_second(count, self.time));
        format!("{name:<16}{reads:>16}{percent:>14}{sales:>16}{stale_sales:>14}{stale_prices:>14}")
    }

    fn end(self) -> Found<()> {
        self.workers.into_iter().try_for_each(Worker::end)
    }
}

impl Worker {
    fn start(way: Way, number: u8, place: &Place) -> Found<Worker> {
        let words = [&place.folder, &place.database];
        let mut process = Command::new(std::env::current_exe()?)
            .args(["process", &way.to_string(), &number.to_string()])
            .args(words)
            .args(&place.redis)
            .stdin(Stdio::piped())
            .stdout(Stdio::piped())
            .spawn()?;
        let output = process.stdout.take().ok_or("a process has no output")?;
        let input = process.stdin.take();
        Ok(Worker { process, input, output: BufReader::new(output) })
    }

    fn begin_turn(&mut self) -> Found<()> {
        let input = self.input.as_mut().ok_or("a process has ended")?;
        Ok(writeln!(input, "{}", TURN.as_millis())?)
    }

    /// What the process reports until the next empty line.
    fn reports(&mut self) -> Found<Report> {
        let mut sum = Report::default();
        loop {
            let mut line = String::new();
            self.output.read_line(&mut line)?;
            match line.as_str() {
                "" => return Err("a process of the shop has ended".into()),
                "\n" => return Ok(sum),
                line => sum.add(line.trim_end().parse()?),
            }
        }
    }

    fn end(mut self) -> Found<()> {
        self.input = None;
        let status = self.process.wait()?;
        if status.success() { Ok(()) } else { Err("a process of the shop has failed".into()) }
    }
}

impl Drop for Worker {
    fn drop(&mut self) {
        // One that has ended is no news.
        let _ = self.process.kill();
        let _ = self.process.wait();
    }
}

/// The table on the terminal.
struct Shown {
    is_terminal: bool,
    /// This many lines are drawn again.
    lines: usize,
}

impl Shown {
    /// Draws the table again, if there is a terminal.
    fn show(&mut self, teams: &[Team]) -> Found<()> {
        if self.is_terminal { self.draw(teams) } else { Ok(()) }
    }

    fn end(&mut self, teams: &[Team]) -> Found<()> {
        self.draw(teams)
    }

    fn draw(&mut self, teams: &[Team]) -> Found<()> {
        let head = format!(
            "{:<16}{:>16}{:>14}{:>16}{:>14}{:>14}",
            "", "reads a second", "from memory", "sales a second", "stale sales", "stale prices"
        );
        let lines: Vec<String> = [head].into_iter().chain(teams.iter().map(Team::line)).collect();
        let mut output = std::io::stdout().lock();
        if self.lines > 0 {
            write!(output, "\x1b[{}A", self.lines)?;
        }
        lines.iter().try_for_each(|line| writeln!(output, "{line}"))?;
        self.lines = lines.len();
        Ok(output.flush()?)
    }
}

fn percent(part: u64, whole: u64) -> f64 {
    let [part, whole] = [part, whole.max(1)].map(|count| u32::try_from(count).unwrap_or(u32::MAX));
    100.0 * f64::from(part) / f64::from(whole)
}

fn a_second(count: u64, time: Duration) -> u64 {
    let count = f64::from(u32::try_from(count).unwrap_or(u32::MAX));
    let rate = count / time.as_secs_f64().max(f64::MIN_POSITIVE);
    // A rate of calls is far below the greatest number.
    #[allow(clippy::cast_possible_truncation, clippy::cast_sign_loss)]
    let rate = rate.round() as u64;
    rate
}
