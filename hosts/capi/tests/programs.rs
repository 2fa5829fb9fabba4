//! Programs in C and C++ over the shared library, against servers in this process: plain, and with
//! the sanitizers of the compiler.
use krl::{
    Access, Client, Leases, Listener, MemoryStore, Outcome, Server, Servers, Shard, ShardMap,
    TlsConfig,
};
use krl_testing::c_programs::{
    Library, MEMORY, THREADS, blocks, checked, compilers, folder_of, run,
};
use std::fs;
use std::io::{BufRead, BufReader};
use std::path::{Path, PathBuf};
use std::process::{Child, Command, Stdio};
use std::thread;
use std::time::{Duration, Instant};

/// The folder of the package.
const PACKAGE: &str = env!("CARGO_MANIFEST_DIR");

const LIBRARY: Library =
    Library { package: PACKAGE, file: "libkrl_client.so", soname: "libkrl_client.so.0" };

/// The second shard of a map begins here.
const BOUND: u64 = 100;

/// A table that a program joins, and a folder that is gone when the test is.
struct World {
    folder: PathBuf,
    kind: &'static str,
    place: String,
    servers: Vec<Server>,
}

fn listener() -> Listener {
    Listener::bind(&"127.0.0.1:0".parse().unwrap()).unwrap()
}

impl World {
    fn new(name: &str) -> World {
        World::over(folder_of("capi", name), listener())
    }

    /// A server at a Unix socket.
    fn at_socket(name: &str) -> World {
        let folder = folder_of("capi", name);
        let address = format!("unix:{}/socket", folder.display());
        let listener = Listener::bind(&address.parse().unwrap()).unwrap();
        World::over(folder, listener)
    }

    fn over(folder: PathBuf, listener: Listener) -> World {
        let server = Server::start(listener, MemoryStore::default()).unwrap();
        let place = server.address().to_string();
        World { folder, kind: "servers", place, servers: vec![server] }
    }

    /// A server that grants leases of this length.
    fn leased(name: &str, length: Duration) -> World {
        let builder = Server::builder(listener(), MemoryStore::default());
        let server = builder.leases(Leases::of(length).unwrap()).start().unwrap();
        let place = server.address().to_string();
        World { folder: folder_of("capi", name), kind: "leased", place, servers: vec![server] }
    }

    /// Two shards, and the file of their map.
    fn sharded(name: &str) -> World {
        let folder = folder_of("capi", name);
        let start = |bounds: String| {
            let builder = Server::builder(listener(), MemoryStore::default());
            builder.shard(bounds.parse().unwrap()).start().unwrap()
        };
        let bounds = [format!("0..{BOUND}@1"), format!("{BOUND}..@1")];
        let servers: Vec<Server> = bounds.map(start).into();
        let shard = |(first, server): (u64, &Server)| Shard::new(first, server.address());
        let map = ShardMap::new([0, BOUND].into_iter().zip(&servers).map(shard).collect());
        let file = folder.join("map.toml");
        fs::write(&file, format!("version = 1\n{}", map.unwrap().to_toml())).unwrap();
        World { place: text(&file), folder, kind: "map", servers }
    }

    /// A server by TLS, and certificates of the clients 0 and 1 in the folder.
    fn certified(name: &str) -> World {
        let folder = folder_of("capi", name);
        let script = format!("{PACKAGE}/../packaging/certificates");
        run(Command::new(script).arg(&folder).args(["server", "client-0", "client-1"]));
        let file = |name: &str| folder.join(name);
        let [authority, certificate, key] = ["authority.crt", "server.crt", "server.key"].map(file);
        let config = TlsConfig::from_files(authority, certificate, key).unwrap();
        let builder = Server::builder(
            Listener::bind(&"tls:127.0.0.1:0".parse().unwrap()).unwrap(),
            MemoryStore::default(),
        );
        let server = builder.access(Access::new().tls(config)).start().unwrap();
        let place = server.address().to_string();
        World { folder, kind: "tls", place, servers: vec![server] }
    }

    /// Builds a program with these words of the compiler, and runs it.
    fn runs(&self, compiler: &str, source: &str, words: &[&str]) {
        self.build(compiler, source, words);
        self.run(&[self.kind, &self.place, &text(&self.folder)]);
    }

    /// Runs a program, and ends the servers when it has printed this line.
    fn ends_under(mut self, source: &str, line: &str) {
        self.build("cc", source, &[]);
        let mut program = Command::new(self.program())
            .args([self.kind, &self.place, &text(&self.folder)])
            .stdout(Stdio::piped())
            .spawn()
            .unwrap();
        let mut printed = String::new();
        BufReader::new(program.stdout.take().unwrap()).read_line(&mut printed).unwrap();
        assert_eq!(printed, line);
        self.servers.clear();
        assert!(program.wait().unwrap().success());
    }

    /// Runs a program that reads, and keeps what it has read until its input ends.
    fn reads(&self, source: &str) -> Child {
        self.build("cc", source, &[]);
        let mut program = Command::new(self.program())
            .args([self.kind, &self.place, &text(&self.folder)])
            .stdin(Stdio::piped())
            .stdout(Stdio::piped())
            .spawn()
            .unwrap();
        let mut printed = BufReader::new(program.stdout.take().unwrap()).lines();
        assert_eq!(printed.next().unwrap().unwrap(), "reads");
        program
    }

    /// Builds a program of the package with these words of the compiler.
    fn build(&self, compiler: &str, source: &str, words: &[&str]) {
        self.build_at(compiler, &format!("{PACKAGE}/{source}"), words);
    }

    fn build_at(&self, compiler: &str, source: &str, words: &[&str]) {
        LIBRARY.build(compiler, Path::new(source), words, &self.folder);
    }

    /// Runs the program that was built, and gives what it prints.
    fn run(&self, words: &[&str]) -> String {
        run(checked(&self.program()).args(words))
    }

    fn program(&self) -> PathBuf {
        self.folder.join("program")
    }
}

impl Drop for World {
    fn drop(&mut self) {
        let _ = fs::remove_dir_all(&self.folder);
    }
}

fn text(path: &Path) -> String {
    path.to_str().unwrap().into()
}

#[test]
fn each_call_answers_as_the_header_states() {
    World::new("calls").runs("cc", "tests/programs/calls.c", &[]);
}

#[test]
fn each_call_with_sanitizers_of_memory() {
    World::new("calls-memory").runs("cc", "tests/programs/calls.c", MEMORY);
}

#[test]
fn each_call_over_shards() {
    World::sharded("shards").runs("cc", "tests/programs/calls.c", &[]);
}

#[test]
fn each_call_with_leases() {
    let world = World::leased("leases", Duration::from_secs(60));
    world.runs("cc", "tests/programs/calls.c", &[]);
}

#[test]
fn the_first_free_number_is_taken_by_lock_files_of_the_user() {
    let world = World::leased("connect", Duration::from_secs(60));
    world.runs("cc", "tests/programs/connect.c", MEMORY);
}

#[test]
fn each_call_over_tls() {
    World::certified("tls").runs("cc", "tests/programs/calls.c", &[]);
}

#[test]
fn calls_that_none_should_make_are_refused() {
    World::new("hostile").runs("cc", "tests/programs/hostile.c", &[]);
}

#[test]
fn calls_that_none_should_make_with_sanitizers_of_memory() {
    World::new("hostile-memory").runs("cc", "tests/programs/hostile.c", MEMORY);
}

#[test]
fn many_threads_read_and_write_at_once() {
    World::new("threads").runs("cc", "tests/programs/threads.c", MEMORY);
}

#[test]
fn many_threads_with_the_sanitizer_of_threads() {
    World::new("threads-threads").runs("cc", "tests/programs/threads.c", THREADS);
}

#[test]
fn a_server_that_goes_away_ends_no_program() {
    World::at_socket("parting").ends_under("tests/programs/parting.c", "joined\n");
}

#[test]
fn a_process_whose_first_thread_has_ended_is_not_dead() {
    let world = World::at_socket("headless");
    let mut program = world.reads("tests/programs/headless.c");
    let first = format!("/proc/{}/task/{0}/stat", program.id());
    while !fs::read_to_string(&first).unwrap().contains(") Z ") {
        thread::sleep(Duration::from_millis(1));
    }
    thread::sleep(Duration::from_millis(500));
    assert_eq!(world.servers[0].status().evicted, 0);
    drop(program.stdin.take());
    assert!(program.wait().unwrap().success());
}

#[test]
fn a_process_that_returns_from_main_leaves() {
    let world = World::leased("exits", Duration::from_secs(600));
    let mut program = world.reads("tests/programs/exits.c");
    drop(program.stdin.take());
    assert!(program.wait().unwrap().success());
    let servers: Servers = world.place.parse().unwrap();
    let builder = Client::builder(servers, 4, world.folder.join("other.lock"));
    let other = builder.timeout(Duration::from_secs(20)).join().unwrap();
    assert_eq!(other.set(10, "other".try_into().unwrap()), Ok(Outcome::Applied));
    assert_eq!(world.servers[0].status().evicted, 0);
}

#[test]
fn a_process_ends_soon_though_its_server_is_gone() {
    let mut world = World::leased("exits-alone", Duration::from_secs(600));
    let mut program = world.reads("tests/programs/exits.c");
    world.servers.clear();
    let begun = Instant::now();
    drop(program.stdin.take());
    assert!(program.wait().unwrap().success());
    let took = begun.elapsed();
    assert!(took < Duration::from_secs(5), "{took:?}");
}

#[test]
fn a_lease_that_ends_leaves_neither_rows_nor_pins() {
    let world = World::leased("lease", Duration::from_millis(600));
    world.ends_under("tests/programs/lease.c", "pinned\n");
}

const README: &str = include_str!("../README.md");

/// Runs lines of a page in this language, as the body of a program with these headers.
fn run_page(lines: &str, language: &str, compiler: &str, headers: &[&str]) -> String {
    let world = World::new(&format!("page-{}-{compiler}", lines.len()));
    let lines = lines.replace("127.0.0.1:7400", &world.place);
    let lines = lines.replace("client-3.lock", &text(&world.folder.join("client-3.lock")));
    let headers: Vec<String> = headers.iter().map(|name| format!("#include <{name}>\n")).collect();
    let source = world.folder.join(format!("page.{language}"));
    fs::write(&source, format!("{}int main() {{\n{lines}}}\n", headers.concat())).unwrap();
    world.build_at(compiler, &text(&source), &[]);
    world.run(&[])
}

#[test]
fn the_lines_of_the_pages() {
    let (headers, classes) = (["krl_client.h", "err.h", "stdio.h"], ["krl.hpp", "iostream"]);
    assert_eq!(run_page(&blocks(README, "c", 1), "c", "cc", &headers), "15=hello\n");
    for compiler in compilers(&[]) {
        let printed = run_page(&blocks(README, "cpp", 1), "cpp", compiler, &classes);
        assert_eq!(printed, "15=world\n");
    }
}

#[test]
fn the_classes_for_cpp() {
    for compiler in compilers(&[]) {
        World::new(compiler).runs(compiler, "tests/programs/wrapper.cpp", &[]);
    }
}

#[test]
fn the_classes_for_cpp_without_exceptions() {
    for compiler in compilers(&[]) {
        let world = World::new(&format!("expected-{compiler}"));
        world.runs(compiler, "tests/programs/expected.cpp", &["-fno-exceptions"]);
    }
}

#[test]
fn the_classes_for_cpp_with_sanitizers_of_memory() {
    for compiler in compilers(MEMORY).into_iter().take(1) {
        World::new("cpp-memory").runs(compiler, "tests/programs/wrapper.cpp", MEMORY);
    }
}

#[test]
fn the_example_in_c() {
    let world = World::new("hello");
    world.build("cc", "examples/hello.c", &[]);
    let printed = world.run(&[&world.place, &text(&world.folder.join("hello.lock"))]);
    assert_eq!(printed, "15=hello\n");
}

#[test]
fn the_example_of_a_storage_engine() {
    for compiler in compilers(&[]) {
        let world = World::new(&format!("engine-{compiler}"));
        world.build(compiler, "examples/storage_engine.cpp", &[]);
        let printed = world.run(&[&world.place, &text(&world.folder)]);
        assert_eq!(printed, "12 extents taken\n");
    }
}
