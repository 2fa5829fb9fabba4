//! Programs in C and C++ over a shared library that cargo has built.
use std::fs;
use std::path::{Path, PathBuf};
use std::process::{Command, Stdio};
use std::thread;

/// Words of a compiler for its sanitizers of memory and of undefined behavior.
pub const MEMORY: &[&str] = &["-fsanitize=address,undefined", "-fno-sanitize-recover=all"];
/// Words of a compiler for its sanitizer of threads.
pub const THREADS: &[&str] = &["-fsanitize=thread"];

/// A library, and the package whose headers it has.
#[derive(Clone, Copy, Debug)]
pub struct Library {
    /// The folder of the package.
    pub package: &'static str,
    /// The file as cargo names it.
    pub file: &'static str,
    /// The name that programs look for.
    pub soname: &'static str,
}

impl Library {
    /// Builds a program of this source with these words of the compiler: `program` in the folder.
    pub fn build(self, compiler: &str, source: &Path, words: &[&str], folder: &Path) -> PathBuf {
        let Library { package, file, soname } = self;
        // Where cargo has left it: this test stands there too.
        let library = std::env::current_exe().unwrap().with_file_name(file);
        let name = folder.join(soname);
        // An earlier program of the test may have made it.
        let _ = std::os::unix::fs::symlink(&library, &name);
        assert!(name.exists(), "there is no {}", name.display());
        let standard = if compiler.ends_with("++") { "-std=c++17" } else { "-std=c11" };
        let program = folder.join("program");
        run(Command::new(compiler)
            .args([standard, "-g", "-Wall", "-Wextra", "-Wpedantic", "-Werror", "-pthread"])
            .args(words)
            .arg(format!("-I{package}/include"))
            .arg(format!("-I{package}/tests/programs"))
            .arg(source)
            .arg("-o")
            .arg(&program)
            .arg(library)
            .arg(format!("-Wl,-rpath,{}", folder.display())));
        program
    }
}

/// A program to be run, in which a finding of a sanitizer is a failure.
pub fn checked(program: &Path) -> Command {
    let mut command = Command::new(program);
    command.env("UBSAN_OPTIONS", "halt_on_error=1");
    // The sanitizer of threads sees nothing of how the library's own threads take turns.
    command.env("TSAN_OPTIONS", "halt_on_error=1 ignore_noninstrumented_modules=1");
    command
}

/// Runs a program that has to succeed, and returns what it prints.
pub fn run(command: &mut Command) -> String {
    let ended = command.output().unwrap_or_else(|error| panic!("{command:?}: {error}"));
    assert!(
        ended.status.success(),
        "{command:?}: {}\n{}{}",
        ended.status,
        String::from_utf8_lossy(&ended.stdout),
        String::from_utf8_lossy(&ended.stderr)
    );
    String::from_utf8(ended.stdout).unwrap()
}

/// A folder of a test, which the test removes.
pub fn folder_of(package: &str, test: &str) -> PathBuf {
    let name = format!("krl-{package}-{}-{test}", std::process::id());
    let folder = std::env::temp_dir().join(name);
    fs::create_dir_all(&folder).unwrap();
    folder
}

/// Each compiler of C++ that makes a program by these words: what a sanitizer needs may be lacking.
/// One has to, if all has to be run.
pub fn compilers(words: &[&str]) -> Vec<&'static str> {
    let folder = folder_of("compilers", &format!("{:?}", thread::current().id()));
    let source = folder.join("empty.cpp");
    fs::write(&source, "int main() {}\n").unwrap();
    let makes = |name: &&str| {
        let mut compiler = Command::new(name);
        compiler.args(words).arg(&source).arg("-o").arg(folder.join("empty"));
        let made = compiler.stdout(Stdio::null()).stderr(Stdio::null()).status();
        made.is_ok_and(|status| status.success())
    };
    let found: Vec<&str> = ["g++", "clang++"].into_iter().filter(makes).collect();
    let _ = fs::remove_dir_all(&folder);
    if found.is_empty() {
        let what = format!("there is no compiler of C++ {}", words.join(" "));
        assert!(std::env::var_os("KRL_ALL").is_none(), "{what}");
        eprintln!("NOT RUN: {what}");
    }
    found
}

/// The first `count` blocks of a page in this language.
pub fn blocks(page: &str, language: &str, count: usize) -> String {
    let fence = format!("```{language}\n");
    let blocks = page.split(&fence).skip(1).take(count);
    blocks.map(|block| block.split_once("```").unwrap().0).collect()
}
