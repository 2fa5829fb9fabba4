//! One client for each machine: a process that is a client of krl, and that other processes of the
//! machine ask over a Unix socket. So a machine takes one number of the server's 64, whatever the
//! number of its processes.
//!
//!     cargo run --release --example proxy -- serve 127.0.0.1:7400 3 client-3.lock krl.socket
//!     cargo run --release --example proxy -- read krl.socket 10 20
//!     cargo run --release --example proxy -- time krl.socket 10 20
//!
//! A question is a line with the two ends of a range, and its answer the rows, each as a line
//! `KEY VALUE` with the value in hexadecimal, and an empty line. What goes wrong is a line that
//! begins with `!`, and an empty line. The rows are that range of the table at a moment between the
//! question and the answer.
use krl::{Client, Row, Servers};
use std::error::Error;
use std::io::{self, BufRead, BufReader, BufWriter, Write};
use std::os::unix::net::{UnixListener, UnixStream};
use std::thread;
use std::time::{Duration, Instant};

type Done<T> = Result<T, Box<dyn Error>>;

/// How often a question is asked to time it.
const QUESTIONS: usize = 10_000;

const USAGE: &str = "usage: proxy serve SERVER NUMBER LOCK_FILE SOCKET | read SOCKET LO HI | \
    time SOCKET LO HI";

fn main() -> Done<()> {
    let words: Vec<String> = std::env::args().skip(1).collect();
    let words: Vec<&str> = words.iter().map(String::as_str).collect();
    match words[..] {
        ["serve", server, number, lock_file, socket] => {
            let client = Client::join(server.parse::<Servers>()?, number.parse()?, lock_file)?;
            serve(&client, &UnixListener::bind(socket)?)
        }
        ["read", socket, lo, hi] => {
            print!("{}", Proxy::connect(socket)?.ask(&format!("{lo} {hi}"))?);
            Ok(())
        }
        ["time", socket, lo, hi] => time(&mut Proxy::connect(socket)?, &format!("{lo} {hi}")),
        _ => Err(USAGE.into()),
    }
}

/// Answers everybody who connects, each in a thread of its own. They share the client and its
/// cache.
fn serve(client: &Client, listener: &UnixListener) -> Done<()> {
    thread::scope(|scope| {
        for stream in listener.incoming() {
            let stream = stream?;
            // A process that goes away ends only its own connection.
            scope.spawn(move || answer_all(client, &stream));
        }
        Ok(())
    })
}

fn answer_all(client: &Client, stream: &UnixStream) -> io::Result<()> {
    let mut out = BufWriter::new(stream);
    for question in BufReader::new(stream).lines() {
        match rows_of(client, &question?) {
            Ok(rows) => rows.iter().try_for_each(|row| write_row(&mut out, row))?,
            Err(error) => writeln!(out, "! {error}")?,
        }
        writeln!(out)?;
        out.flush()?;
    }
    Ok(())
}

fn rows_of(client: &Client, question: &str) -> Done<Vec<Row>> {
    let (lo, hi) = question.split_once(' ').ok_or("a question is two numbers, as 10 20")?;
    Ok(client.read(lo.parse::<u64>()?..hi.parse()?)?)
}

fn write_row(out: &mut impl Write, row: &Row) -> io::Result<()> {
    write!(out, "{} ", row.key)?;
    row.value.as_bytes().iter().try_for_each(|byte| write!(out, "{byte:02x}"))?;
    writeln!(out)
}

/// A process that asks the proxy.
struct Proxy {
    stream: UnixStream,
    answers: BufReader<UnixStream>,
}

impl Proxy {
    fn connect(socket: &str) -> io::Result<Proxy> {
        let stream = UnixStream::connect(socket)?;
        Ok(Proxy { answers: BufReader::new(stream.try_clone()?), stream })
    }

    /// The answer's lines, without the empty one.
    fn ask(&mut self, question: &str) -> Done<String> {
        self.stream.write_all(format!("{question}\n").as_bytes())?;
        let (mut answer, mut line) = (String::new(), String::new());
        loop {
            line.clear();
            match self.answers.read_line(&mut line)? {
                0 => return Err("the proxy has ended".into()),
                1 => return Ok(answer),
                _ => answer.push_str(&line),
            }
        }
    }
}

/// Prints how long the middle one of many equal questions takes.
fn time(proxy: &mut Proxy, question: &str) -> Done<()> {
    let mut times: Vec<Duration> = Vec::with_capacity(QUESTIONS);
    let mut rows = 0;
    for _ in 0..QUESTIONS {
        let begun = Instant::now();
        rows = proxy.ask(question)?.lines().count();
        times.push(begun.elapsed());
    }
    times.sort_unstable();
    println!("{rows} rows: {:?}", times[QUESTIONS / 2]);
    Ok(())
}
