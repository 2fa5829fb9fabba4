//! A shop whose processes read its products from memory: once by krl-cache, and once with Redis in
//! front of the database. `examples/shop/run` starts the servers and this.
//!
//!     shop show SECONDS FOLDER DATABASE [REDIS]
//!
//! Each way has its turns of some seconds. In a turn three processes read shelves of ten products
//! and sell one now and then, and psql changes prices. Who has sold or changed something notes it in
//! a file as soon as the database has acknowledged it. Each process looks there before each read: a
//! read that shows less than was acknowledged before it began is stale.
mod acknowledged;
mod aside;
mod cached;
mod clerk;
mod database;
mod process;
mod show;

use std::error::Error;
use std::fmt;
use std::ops::Range;
use std::process::ExitCode;
use std::time::Duration;

/// How many products the shop has. Their numbers are 0 and those after it.
const PRODUCTS: u64 = 1000;

/// This many products lie on a shelf.
const SHELF: u64 = 10;

/// Most customers look at these products.
const POPULAR: u64 = 20;

/// This many processes run the shop.
const PROCESSES: u8 = 3;

type Found<T> = Result<T, Box<dyn Error + Send + Sync>>;

/// A product as it is shown. Both numbers only grow.
#[derive(Clone, Copy, Debug, PartialEq, Eq, PartialOrd, Ord)]
struct Product {
    number: u64,
    /// How often it was sold.
    sold: u64,
    price: u64,
}

/// How a process of the shop reads and sells.
trait Shop {
    /// The products of these numbers, in their order.
    fn shelf(&mut self, numbers: Range<u64>) -> Found<Vec<Product>>;

    /// Sells a product, and returns how often it was sold then.
    fn sell(&mut self, number: u64) -> Found<u64>;

    /// How many products were read from the memory of the process until now.
    fn read_from_memory(&self) -> u64;

    /// Gives back what the process holds in krl, so that no writer waits for it.
    fn leave(self: Box<Self>);
}

/// What keeps the products next to the database.
#[derive(Clone, Copy, Debug, PartialEq, Eq)]
enum Way {
    Krl,
    Redis,
}

impl Way {
    fn parse(text: &str) -> Found<Way> {
        match text {
            "krl" => Ok(Way::Krl),
            "redis" => Ok(Way::Redis),
            _ => Err(format!("'{text}' is no way: expected krl or redis").into()),
        }
    }

    /// The table whose products are read so.
    fn table(self) -> &'static str {
        match self {
            Way::Krl => "product",
            Way::Redis => "plain_product",
        }
    }
}

impl fmt::Display for Way {
    fn fmt(&self, f: &mut fmt::Formatter<'_>) -> fmt::Result {
        f.write_str(match self {
            Way::Krl => "krl",
            Way::Redis => "redis",
        })
    }
}

/// Where everything is.
#[derive(Clone, Debug)]
struct Place {
    folder: String,
    database: String,
    /// Without Redis only krl-cache is shown.
    redis: Option<String>,
}

/// Numbers from a seed (`SplitMix64`).
struct Draws(u64);

impl Draws {
    /// A number below the bound.
    fn below(&mut self, bound: u64) -> u64 {
        self.0 = self.0.wrapping_add(0x9e37_79b9_7f4a_7c15);
        let mixed = (self.0 ^ (self.0 >> 30)).wrapping_mul(0xbf58_476d_1ce4_e5b9);
        let mixed = (mixed ^ (mixed >> 27)).wrapping_mul(0x94d0_49bb_1331_11eb);
        ((mixed >> 32) * bound) >> 32
    }
}

fn main() -> ExitCode {
    let words: Vec<String> = std::env::args().skip(1).collect();
    let words: Vec<&str> = words.iter().map(String::as_str).collect();
    match run(&words) {
        Ok(()) => ExitCode::SUCCESS,
        Err(error) => {
            eprintln!("shop: {error}");
            ExitCode::FAILURE
        }
    }
}

fn run(words: &[&str]) -> Found<()> {
    let place = |folder: &str, database: &str, redis: &[&str]| Place {
        folder: folder.to_string(),
        database: database.to_string(),
        redis: redis.first().map(ToString::to_string),
    };
    match words {
        ["show", seconds, folder, database, redis @ ..] => {
            let time = Duration::from_secs(seconds.parse()?);
            show::show(&place(folder, database, redis), time)
        }
        ["process", way, number, folder, database, redis @ ..] => {
            let place = place(folder, database, redis);
            process::run(Way::parse(way)?, number.parse()?, &place)
        }
        _ => Err("expected show SECONDS FOLDER DATABASE [REDIS]: examples/shop/run does".into()),
    }
}
