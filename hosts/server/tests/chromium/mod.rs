//! A browser without a window, driven by its own protocol for debuggers.
use serde_json::{Value, json};
use std::env;
use std::fs;
use std::io::{BufRead, BufReader, Write};
use std::path::{Path, PathBuf};
use std::process::{Child, ChildStdin, Command, Stdio};
use std::sync::mpsc::{Receiver, channel};
use std::sync::{Mutex, MutexGuard, PoisonError};
use std::thread;
use std::time::{Duration, Instant};
use tempfile::TempDir;

/// How long the browser may take to do what it is asked.
const PATIENCE: Duration = Duration::from_secs(60);

/// The browser reads commands from descriptor 3 and writes answers to descriptor 4, with a 0 after
/// each.
const SCRIPT: &str = "exec \"$@\" 3<&0 4>&1 </dev/null >/dev/null 2>&1";

/// One browser runs at a time: several make each other slow.
static TURN: Mutex<()> = Mutex::new(());

/// A browser with one page. It ends with this value.
pub struct Browser {
    process: Child,
    commands: ChildStdin,
    answers: Receiver<Value>,
    last: u64,
    session: Option<String>,
    /// What the page reported of itself: errors of its script, and what its policy forbids.
    pub complaints: Vec<String>,
    _profile: TempDir,
    _turn: MutexGuard<'static, ()>,
}

impl Browser {
    /// A browser that shows this page, or none if there is no browser. Where everything has to run
    /// that is a failure.
    pub fn show(url: &str) -> Option<Browser> {
        let Some(program) = program() else {
            let has_to_run = env::var_os("KRL_ALL").is_some_and(|all| !all.is_empty());
            assert!(!has_to_run, "there is no chromium");
            eprintln!("NOT RUN: there is no chromium");
            return None;
        };
        let mut browser = Browser::start(&program);
        let made = browser.call("Target.createTarget", &json!({ "url": "about:blank" }));
        let target = json!({ "targetId": made["targetId"], "flatten": true });
        let attached = browser.call("Target.attachToTarget", &target);
        browser.session = Some(attached["sessionId"].as_str().unwrap().to_string());
        for domain in ["Page", "Runtime", "Log"] {
            browser.call(&format!("{domain}.enable"), &json!({}));
        }
        browser.call("Page.navigate", &json!({ "url": url }));
        Some(browser)
    }

    fn start(program: &Path) -> Browser {
        let turn = TURN.lock().unwrap_or_else(PoisonError::into_inner);
        let profile = TempDir::new().unwrap();
        let mut command = Command::new("sh");
        command.args(["-c", SCRIPT, "sh"]).arg(program);
        command.args([
            "--headless=new",
            "--no-sandbox",
            "--disable-gpu",
            "--disable-dev-shm-usage",
        ]);
        command.args(["--no-first-run", "--disable-extensions", "--disable-background-networking"]);
        command.args(["--hide-scrollbars", "--remote-debugging-pipe"]);
        command.arg(format!("--user-data-dir={}", profile.path().display()));
        let mut process = command.stdin(Stdio::piped()).stdout(Stdio::piped()).spawn().unwrap();
        let (send, answers) = channel();
        let output = BufReader::new(process.stdout.take().unwrap());
        thread::spawn(move || {
            let texts = output.split(0).map_while(Result::ok);
            for answer in texts.filter_map(|text| serde_json::from_slice(&text).ok()) {
                // A test that has ended no longer listens.
                let _ = send.send(answer);
            }
        });
        let commands = process.stdin.take().unwrap();
        let (last, session, complaints) = (0, None, Vec::new());
        Browser {
            process,
            commands,
            answers,
            last,
            session,
            complaints,
            _profile: profile,
            _turn: turn,
        }
    }

    /// Has the browser do something, and gives what it answers.
    pub fn call(&mut self, method: &str, parameters: &Value) -> Value {
        self.last += 1;
        let mut command = json!({ "id": self.last, "method": method, "params": parameters });
        if let Some(session) = &self.session {
            command["sessionId"] = json!(session);
        }
        self.commands.write_all(format!("{command}\0").as_bytes()).unwrap();
        let end = Instant::now() + PATIENCE;
        loop {
            let left = end.saturating_duration_since(Instant::now());
            let answer = self.answers.recv_timeout(left).expect(method);
            if answer["id"] == self.last {
                assert!(answer["error"].is_null(), "{method}: {answer}");
                return answer["result"].clone();
            }
            self.hear(&answer);
        }
    }

    fn hear(&mut self, event: &Value) {
        let method = event["method"].as_str().unwrap_or_default();
        if matches!(method, "Log.entryAdded" | "Runtime.exceptionThrown") {
            self.complaints.push(event["params"].to_string());
        }
    }

    /// What an expression of the page's script gives.
    pub fn evaluate(&mut self, expression: &str) -> Value {
        let parameters = json!({ "expression": expression, "returnByValue": true });
        self.call("Runtime.evaluate", &parameters)["result"]["value"].clone()
    }

    /// Waits until an expression is true, and returns how long that took.
    pub fn until(&mut self, expression: &str) -> Duration {
        let began = Instant::now();
        while self.evaluate(expression) != true {
            let page = || "document.documentElement.outerHTML";
            assert!(began.elapsed() < PATIENCE, "{expression}: {}", self.evaluate(page()));
            thread::sleep(Duration::from_millis(50));
        }
        began.elapsed()
    }

    /// Shows the page in a window of this width, in light or dark colors.
    pub fn look(&mut self, width: u32, scheme: &str) {
        let size =
            json!({ "width": width, "height": 1200, "deviceScaleFactor": 1, "mobile": false });
        self.call("Emulation.setDeviceMetricsOverride", &size);
        let feature = json!({ "name": "prefers-color-scheme", "value": scheme });
        self.call("Emulation.setEmulatedMedia", &json!({ "features": [feature] }));
    }

    /// Keeps a picture of the page under this name, and gives its bytes.
    pub fn photograph(&mut self, name: &str) -> Vec<u8> {
        let taken = self.call("Page.captureScreenshot", &json!({ "format": "png" }));
        let bytes = openssl::base64::decode_block(taken["data"].as_str().unwrap()).unwrap();
        let folder = Path::new(env!("CARGO_TARGET_TMPDIR")).join("pictures");
        fs::create_dir_all(&folder).unwrap();
        fs::write(folder.join(name), &bytes).unwrap();
        bytes
    }
}

impl Drop for Browser {
    fn drop(&mut self) {
        // One that has ended needs no end.
        let _ = self.process.kill();
        let _ = self.process.wait();
    }
}

fn program() -> Option<PathBuf> {
    let path = env::var_os("PATH")?;
    env::split_paths(&path).map(|folder| folder.join("chromium")).find(|program| program.is_file())
}
