//! What a cached read takes through C, next to the same read in Rust, by `cargo bench`.
//!
//! The two take turns, as two clients of one server in this process. Each turn gives the middle one
//! of many batches, and a figure is that of the best turn.
use krl::{Client, Listener, MemoryStore, Outcome, Server, Value};
use std::hint::black_box;
use std::path::{Path, PathBuf};
use std::process::Command;
use std::time::Instant;

const PACKAGE: &str = env!("CARGO_MANIFEST_DIR");
const TURNS: usize = 9;
const BATCHES: usize = 301;

/// The rows of a read, and how many reads are a batch.
const SIZES: [(u64, u32); 2] = [(1, 2000), (100, 200)];

/// The time of a read in nanoseconds: into room that is used again, and into the caller's own rows.
type Times = [f64; 2];

fn main() {
    let folder = std::env::temp_dir().join(format!("krl-cached-reads-{}", std::process::id()));
    std::fs::create_dir_all(&folder).unwrap();
    let program = program_in_c(&folder);
    let listener = Listener::bind(&"127.0.0.1:0".parse().unwrap()).unwrap();
    let server = Server::start(listener, MemoryStore::default()).unwrap();
    let client = Client::join(server.address(), 0, folder.join("rust.lock")).unwrap();
    for key in 0..100 {
        assert_eq!(client.insert(key, Value::from(key)), Ok(Outcome::Applied));
    }
    // Only what was written is held.
    client.forget(..).unwrap();
    for (rows, reads) in SIZES {
        let (mut rust, mut c) = ([f64::MAX; 2], [f64::MAX; 2]);
        for _ in 0..TURNS {
            keep_least(&mut rust, in_rust(&client, rows, reads));
            let words = [server.address().to_string(), text(&folder.join("c.lock"))];
            let counts = [rows.to_string(), reads.to_string(), BATCHES.to_string()];
            keep_least(&mut c, in_c(&program, &[words.as_slice(), counts.as_slice()].concat()));
        }
        println!("cached read, rows: {rows}; in nanoseconds, and as many times Rust's:");
        report("room that is used again", rust[0], c[0]);
        report("the caller's own rows", rust[1], c[1]);
    }
    let load = std::fs::read_to_string("/proc/loadavg").unwrap_or_default();
    println!("load: {}", load.trim());
    let _ = std::fs::remove_dir_all(&folder);
}

fn report(what: &str, rust: f64, c: f64) {
    println!("  {what}: Rust {rust:.1}, C {c:.1} ({:.2})", c / rust);
}

fn keep_least(least: &mut Times, times: Times) {
    for (least, time) in least.iter_mut().zip(times) {
        *least = least.min(time);
    }
}

fn in_rust(client: &Client, rows: u64, reads: u32) -> Times {
    client.read(0..rows).unwrap();
    let mut room = Vec::new();
    let again = || assert!(client.cached_into(0..rows, &mut room).unwrap() && room[0].key == 0);
    let again = middle(reads, again);
    [again, middle(reads, || assert!(matches!(black_box(client.cached(0..rows)), Ok(Some(_)))))]
}

/// The time of a call, from the middle one of the batches.
fn middle(calls: u32, mut call: impl FnMut()) -> f64 {
    let mut batch = |_| {
        let began = Instant::now();
        (0..calls).for_each(|_| call());
        began.elapsed().as_secs_f64() * 1e9 / f64::from(calls)
    };
    let mut times: Vec<f64> = (0..BATCHES).map(&mut batch).collect();
    times.sort_by(f64::total_cmp);
    times[BATCHES / 2]
}

fn in_c(program: &Path, words: &[String]) -> Times {
    let ended = Command::new(program).args(words).output().unwrap();
    assert!(ended.status.success(), "{ended:?}");
    let printed = String::from_utf8(ended.stdout).unwrap();
    let times: Vec<f64> = printed.split_whitespace().map(|time| time.parse().unwrap()).collect();
    times.try_into().unwrap()
}

/// Builds the program in C. The library stands where cargo has built this program.
fn program_in_c(folder: &Path) -> PathBuf {
    let libraries = std::env::current_exe().unwrap().parent().unwrap().to_path_buf();
    let program = folder.join("cached_reads");
    let library = libraries.join("libkrl_client.so");
    std::fs::copy(&library, folder.join("libkrl_client.so.0")).unwrap();
    let built = Command::new("cc")
        .args(["-std=c11", "-O2", "-Wall", "-Wextra", "-Werror"])
        .arg(format!("-I{PACKAGE}/include"))
        .arg(format!("{PACKAGE}/benches/cached_reads.c"))
        .arg(library)
        .arg(format!("-Wl,-rpath,{}", folder.display()))
        .arg("-o")
        .arg(&program)
        .status();
    assert!(built.unwrap().success());
    program
}

fn text(path: &Path) -> String {
    path.to_str().unwrap().into()
}
