//! What a read of one row from memory takes through C, next to the same read in Rust, by
//! `cargo bench`, and through Python if there is one.
//!
//! They take turns, as clients of one server in this process. Each turn gives the middle one of many
//! batches, and a figure is that of the best turn.
#[path = "../../cache/tests/site/mod.rs"]
mod site;

use krl_cache::Table;
use krl_testing::c_programs::{folder_of, run};
use site::{Site, from_memory};
use std::path::{Path, PathBuf};
use std::process::Command;
use std::time::Instant;

const PACKAGE: &str = env!("CARGO_MANIFEST_DIR");
const TURNS: usize = 9;
const BATCHES: usize = 301;
const READS: u32 = 2000;

/// The time in nanoseconds of `get`, of a read from memory only, and of `get` with two columns.
type Times = [f64; 3];

fn main() {
    let Some(site) = Site::start() else { return };
    let folder = folder_of("cached-gets", "bench");
    let program = program_in_c(&folder);
    let cache = site.cache();
    let items = cache.table("item").unwrap();
    from_memory(&items, |items| items.get(3).unwrap());
    let (mut rust, mut c) = ([f64::MAX; 3], [f64::MAX; 3]);
    for _ in 0..TURNS {
        keep_least(&mut rust, in_rust(&items));
        let words = [site.database.address(), text(&folder.join("locks"))];
        let counts = [READS.to_string(), BATCHES.to_string()];
        keep_least(&mut c, in_c(&program, &[words, counts].concat()));
    }
    println!("a read of one row from memory, in nanoseconds, and as many times Rust's:");
    for (place, what) in ["get", "from memory only", "get, and two columns"].iter().enumerate() {
        let (rust, c) = (rust[place], c[place]);
        println!("  {what}: Rust {rust:.1}, C {c:.1} ({:.2})", c / rust);
    }
    in_python(&site, &folder);
    let load = std::fs::read_to_string("/proc/loadavg").unwrap_or_default();
    println!("load: {}", load.trim());
    cache.close();
    let _ = std::fs::remove_dir_all(&folder);
}

fn keep_least(least: &mut Times, times: Times) {
    for (least, time) in least.iter_mut().zip(times) {
        *least = least.min(time);
    }
}

fn in_rust(items: &Table) -> Times {
    let get = middle(|| assert!(items.get(3).unwrap().is_some()));
    let cached = middle(|| assert!(items.cached([3]).unwrap().is_some()));
    let columns = || {
        let row = items.get(3).unwrap().unwrap();
        let (price, name): (i64, &str) = (row.get("price").unwrap(), row.get("name").unwrap());
        assert!(price == 30 && name.len() == 6);
    };
    [get, cached, middle(columns)]
}

/// The time of a call, from the middle one of the batches.
fn middle(mut call: impl FnMut()) -> f64 {
    let mut batch = |_| {
        let began = Instant::now();
        (0..READS).for_each(|_| call());
        began.elapsed().as_secs_f64() * 1e9 / f64::from(READS)
    };
    let mut times: Vec<f64> = (0..BATCHES).map(&mut batch).collect();
    times.sort_by(f64::total_cmp);
    times[BATCHES / 2]
}

fn in_c(program: &Path, words: &[String]) -> Times {
    let printed = run(Command::new(program).args(words));
    let times: Vec<f64> = printed.split_whitespace().map(|time| time.parse().unwrap()).collect();
    times.try_into().unwrap()
}

/// Has Python measure its reads, and prints what it prints.
fn in_python(site: &Site, folder: &Path) {
    let mut command = Command::new("python3");
    command.arg(format!("{PACKAGE}/../python/tests/bench_cached_gets.py"));
    command.arg(site.database.address::<String>()).arg(folder.join("locks"));
    command.env("KRL_CACHE_LIBRARY", library());
    match command.output() {
        Ok(ended) if ended.status.success() => print!("{}", String::from_utf8_lossy(&ended.stdout)),
        Ok(ended) => println!("Python: {}", String::from_utf8_lossy(&ended.stderr)),
        Err(error) => println!("NOT RUN: python3: {error}"),
    }
}

/// The library stands where cargo has built this program.
fn library() -> PathBuf {
    std::env::current_exe().unwrap().with_file_name("libkrl_cache_c.so")
}

fn program_in_c(folder: &Path) -> PathBuf {
    let program = folder.join("cached_gets");
    std::fs::copy(library(), folder.join("libkrl_cache.so.0")).unwrap();
    run(Command::new("cc")
        .args(["-std=c11", "-O2", "-Wall", "-Wextra", "-Werror"])
        .arg(format!("-I{PACKAGE}/include"))
        .arg(format!("{PACKAGE}/benches/cached_gets.c"))
        .arg(library())
        .arg(format!("-Wl,-rpath,{}", folder.display()))
        .arg("-o")
        .arg(&program));
    program
}

fn text(path: &Path) -> String {
    path.to_str().unwrap().into()
}
