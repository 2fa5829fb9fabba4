//! How long each server takes to answer.
use crate::arguments::Format;
use crate::commands::Context;
use crate::failure::Failure;
use crate::output::{print, print_json};
use crate::place::Station;
use krl::ErrorKind;
use serde_json::json;
use std::time::{Duration, Instant};

/// Asks each server of the table once, and prints how long it takes and its epoch.
pub fn ping(context: &Context<'_>) -> Result<(), Failure> {
    context.session.place.stations().iter().try_for_each(|station| ping_one(context, station))
}

/// The greatest key is read again, which asks the server whatever the cache has.
fn ping_one(context: &Context<'_>, station: &Station<'_>) -> Result<(), Failure> {
    let (client, probed) = (&context.session.client, station.point..station.point + 1);
    client.forget(probed.clone())?;
    let begun = Instant::now();
    client.read(probed.clone())?;
    let took = begun.elapsed();
    client.forget(probed)?;
    let (shard, joined) = (station.shard.map_or(0, usize::from), client.status());
    let status = joined.iter().find(|status| status.shard == shard);
    let epoch = status.map_or(Err(ErrorKind::Stopped.into()), |status| status.epoch)?;
    print_answer(context, station, took, epoch)
}

fn print_answer(
    context: &Context<'_>,
    station: &Station<'_>,
    took: Duration,
    epoch: u64,
) -> Result<(), Failure> {
    let (number, joined) = (context.session.client.number(), context.session.joined_in);
    match context.printer.format {
        Format::Text => print(&format!(
            "{station} answered in {took:.1?}; client {number} joined in {joined:.1?}, epoch \
             {epoch}\n",
        )),
        Format::Json => {
            let mut answer = json!({
                "server": station.servers.to_string(),
                "round_trip_seconds": took.as_secs_f64(),
                "join_seconds": joined.as_secs_f64(),
                "client": number,
                "epoch": epoch,
            });
            if let Some(shard) = station.shard {
                answer["shard"] = shard.into();
            }
            print_json(&answer)
        }
    }
}
