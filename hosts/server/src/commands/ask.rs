//! What commands ask a status port.
use super::options::{LocksOptions, PageOptions};
use crate::process::Done;
use crate::process::output;
use crate::settings::{BadSetting, StatusPort};
use crate::status::backup::{self, Order};
use crate::status::http;
use crate::status::locks::{Question, TOP};
use crate::status::paths::{ALIVE, BACKUP, READY, TEXT};
use hyper::StatusCode;
use std::path::Path;
use std::process::ExitCode;
use std::time::Duration;

/// How long a command waits for an answer.
pub const COMMAND_WAIT: Duration = Duration::from_secs(5);

/// How long it waits for the answer who holds what.
const LOCKS_WAIT: Duration = Duration::from_secs(30);

/// Prints a page.
pub fn page(options: &PageOptions, path: &str) -> Done {
    let page = http::page(&options.port.port()?, path, options.format.kind(), COMMAND_WAIT)?;
    Ok(output::print(&page)?)
}

/// Prints who holds what.
pub fn locks(options: &LocksOptions) -> Done {
    let points = options.lo.unwrap_or(0)..options.hi.unwrap_or(TOP);
    let question = Question::new(points, options.limit).map_err(BadSetting)?;
    let port = options.tls.status_port(&options.status)?;
    let page = http::page(&port, &question.path(), options.format.kind(), LOCKS_WAIT)?;
    Ok(output::print(&page)?)
}

/// Prints the server's own report on whether it is alive, or ready. The exit status is 1 if it is
/// not.
pub fn health(port: &StatusPort, ready: bool) -> Done<ExitCode> {
    let reply = http::get(port, if ready { READY } else { ALIVE }, TEXT, COMMAND_WAIT)?;
    output::print(&reply.text)?;
    let is_so = reply.status == StatusCode::OK;
    Ok(if is_so { ExitCode::SUCCESS } else { ExitCode::FAILURE })
}

/// Has the server at this status port copy its store into a new file.
pub fn backup(port: &StatusPort, file: &Path) -> Done {
    let file = std::path::absolute(file)?;
    let order = serde_json::to_string(&Order { file })?;
    let reply = http::post(port, BACKUP, order, backup::TIMEOUT)?;
    match reply.status {
        StatusCode::CREATED => Ok(output::print_done(&reply.text)?),
        _ => Err(format!("no backup: {}", reply.text.trim_end()).into()),
    }
}
