//! The prompt, at a terminal of the test's own.
mod support;

use nix::pty::{OpenptyResult, openpty};
use nix::sys::signal::Signal;
use std::fs::File;
use std::io::{Read, Write};
use std::net::TcpListener;
use std::os::fd::{FromRawFd, RawFd};
use std::process::{Child, Stdio};
use std::sync::mpsc::{Receiver, channel};
use std::thread;
use support::{LONG, World, signal};

/// The program at a terminal: what it prints there comes bit by bit.
struct Prompt {
    program: Child,
    keyboard: File,
    shown: Receiver<Vec<u8>>,
    seen: String,
}

/// The file of a descriptor that nothing else has.
fn file(descriptor: RawFd) -> File {
    // SAFETY: the descriptor was just opened or duplicated for this, and nothing else closes it.
    unsafe { File::from_raw_fd(descriptor) }
}

impl Prompt {
    fn start(world: &World) -> Prompt {
        Prompt::start_with(world, &[])
    }

    fn start_with(world: &World, words: &[&str]) -> Prompt {
        let OpenptyResult { master, slave } = openpty(None, None).unwrap();
        let (screen, terminal) = (file(master), file(slave));
        let mut command = world.command(words);
        command.env("TERM", "xterm");
        command.stdin(Stdio::from(terminal.try_clone().unwrap()));
        command.stdout(Stdio::from(terminal.try_clone().unwrap()));
        command.stderr(Stdio::from(terminal));
        let program = command.spawn().unwrap();
        let keyboard = screen.try_clone().unwrap();
        let (sender, shown) = channel();
        thread::spawn(move || pass_on(screen, |bytes| drop(sender.send(bytes))));
        Prompt { program, keyboard, shown, seen: String::new() }
    }

    fn types(&mut self, text: &str) {
        self.keyboard.write_all(text.as_bytes()).unwrap();
    }

    /// Waits until the terminal shows this text, after what was seen before.
    fn shows(&mut self, text: &str) {
        loop {
            if let Some(place) = self.seen.find(text) {
                self.seen.drain(..place + text.len());
                return;
            }
            let bytes = self.shown.recv_timeout(LONG);
            let bytes = bytes.unwrap_or_else(|_| panic!("no '{text}' in '{}'", self.seen));
            self.seen += &String::from_utf8_lossy(&bytes);
        }
    }
}

fn pass_on(mut screen: File, mut take: impl FnMut(Vec<u8>)) {
    let mut bytes = [0; 1024];
    // When the program has ended, the terminal has nothing to read.
    while let Ok(count @ 1..) = screen.read(&mut bytes) {
        take(bytes[..count].to_vec());
    }
}

#[test]
fn commands_are_typed_one_by_one() {
    let world = World::new("prompt");
    let mut prompt = Prompt::start(&world);
    prompt.shows("krl> ");
    prompt.types("insert 5 'a b'\r");
    prompt.shows("applied");
    prompt.types("get 5\r");
    prompt.shows("5=a b");
    prompt.types("get 6\r");
    prompt.shows("there is no row of key 6");
    prompt.types("fetch 6\r");
    prompt.shows("krl-client: ");
    prompt.types("help\r");
    prompt.shows("insert");
    prompt.shows("quit");
    prompt.types("put 5 c\r");
    prompt.shows("applied");
    prompt.types("watch 0..9\r");
    prompt.shows("# change 0, rows 1");
    signal(&prompt.program, Signal::SIGINT);
    prompt.shows("krl> ");
    prompt.types("get 5\r");
    prompt.shows("5=c");
    prompt.types("quit\r");
    assert_eq!(prompt.program.wait().unwrap().code(), Some(0));
    let history = std::fs::read_to_string(world.folder.join("krl/history")).unwrap();
    assert!(history.contains("insert 5 'a b'") && history.contains("put 5 c"), "{history}");
    let mut prompt = Prompt::start(&world);
    prompt.shows("krl> ");
    // The key that goes up finds the lines of the prompt before.
    prompt.types("\x1b[A\x1b[A\r");
    prompt.shows("5=c");
    // Before the next prompt the terminal itself would take the key.
    prompt.shows("krl> ");
    prompt.types("\x04");
    assert_eq!(prompt.program.wait().unwrap().code(), Some(0));
}

#[test]
fn a_user_learns_for_what_the_program_waits() {
    let world = World::new("waits-at-a-terminal");
    // A socket that takes connections and sends nothing.
    let silent = TcpListener::bind("127.0.0.1:0").unwrap();
    let at = silent.local_addr().unwrap().to_string();
    let mut prompt = Prompt::start_with(&world, &["--server", &at, "--timeout", "3s", "get", "5"]);
    prompt.shows(&format!("waiting for the server at {at}, for up to 3s"));
    prompt.shows("did not answer in time");
    assert_eq!(prompt.program.wait().unwrap().code(), Some(3));
}
