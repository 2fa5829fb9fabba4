//! A process of the shop: it reads shelves, and sells something now and then.
use crate::acknowledged::Acknowledged;
use crate::aside::Aside;
use crate::cached::Cached;
use crate::{Draws, Found, POPULAR, PRODUCTS, Place, Product, SHELF, Shop, Way};
use std::fmt;
use std::io::{BufRead, Write};
use std::ops::Range;
use std::str::FromStr;
use std::time::{Duration, Instant};

/// One call of this many sells a product.
const SELLS: u64 = 200;

/// How often a process reports.
const REPORTS: Duration = Duration::from_millis(500);

/// What a process has done since its last report, as a line of text.
#[derive(Clone, Copy, Debug, Default, PartialEq, Eq)]
pub struct Report {
    pub reads: u64,
    /// Products that were read from memory.
    pub from_memory: u64,
    pub sales: u64,
    /// Reads that showed less than was sold before, or an earlier price.
    pub stale_sales: u64,
    pub stale_prices: u64,
}

impl Report {
    fn numbers(self) -> [u64; 5] {
        let Report { reads, from_memory, sales, stale_sales, stale_prices } = self;
        [reads, from_memory, sales, stale_sales, stale_prices]
    }

    fn of([reads, from_memory, sales, stale_sales, stale_prices]: [u64; 5]) -> Report {
        Report { reads, from_memory, sales, stale_sales, stale_prices }
    }

    pub fn add(&mut self, other: Report) {
        let (mut sums, others) = (self.numbers(), other.numbers());
        sums.iter_mut().zip(others).for_each(|(sum, other)| *sum += other);
        *self = Report::of(sums);
    }
}

impl fmt::Display for Report {
    fn fmt(&self, f: &mut fmt::Formatter<'_>) -> fmt::Result {
        f.write_str(&self.numbers().map(|number| number.to_string()).join(" "))
    }
}

impl FromStr for Report {
    type Err = String;

    fn from_str(line: &str) -> Result<Report, String> {
        let numbers: Result<Vec<u64>, _> = line.split_whitespace().map(str::parse).collect();
        let numbers = numbers.ok().and_then(|numbers| numbers.try_into().ok());
        numbers.map(Report::of).ok_or_else(|| format!("'{line}' is no report of a process"))
    }
}

/// A process of this number. A line of a number on standard input is a turn of this many
/// milliseconds; it ends with the input. Each turn ends with an empty line.
pub fn run(way: Way, number: u8, place: &Place) -> Found<()> {
    let shop: Box<dyn Shop> = match (way, &place.redis) {
        (Way::Krl, _) => Box::new(Cached::open(place)?),
        (Way::Redis, Some(redis)) => Box::new(Aside::open(place, redis)?),
        (Way::Redis, None) => return Err("there is no Redis".into()),
    };
    let acknowledged = Acknowledged::open(&place.folder, way)?;
    let mut process = Process { shop, acknowledged, draws: Draws(u64::from(number) + 1) };
    for start in (0..PRODUCTS).step_by(100) {
        process.shop.shelf(start..start + 100)?;
    }
    println!();
    for line in std::io::stdin().lock().lines() {
        process.take_turn(Duration::from_millis(line?.parse()?))?;
        println!();
        std::io::stdout().flush()?;
    }
    process.shop.leave();
    Ok(())
}

struct Process {
    shop: Box<dyn Shop>,
    acknowledged: Acknowledged,
    draws: Draws,
}

impl Process {
    fn take_turn(&mut self, time: Duration) -> Found<()> {
        let end = Instant::now() + time;
        while Instant::now() < end {
            let report = self.work_until(end.min(Instant::now() + REPORTS))?;
            println!("{report}");
        }
        Ok(())
    }

    fn work_until(&mut self, end: Instant) -> Found<Report> {
        let mut report = Report::default();
        let before = self.shop.read_from_memory();
        while Instant::now() < end {
            let number = self.draw_number();
            if self.draws.below(SELLS) == 0 {
                let sold = self.shop.sell(number)?;
                self.acknowledged.note_sold(number, sold)?;
                report.sales += 1;
            } else {
                self.read(number..number + SHELF, &mut report)?;
            }
        }
        report.from_memory = self.shop.read_from_memory() - before;
        Ok(report)
    }

    /// Reads a shelf, and counts whether it shows less than was acknowledged before.
    fn read(&mut self, numbers: Range<u64>, report: &mut Report) -> Found<()> {
        let least = self.acknowledged.before(numbers.clone())?;
        let products = self.shop.shelf(numbers)?;
        let shown: Vec<(&Product, &Product)> = products.iter().zip(&least).collect();
        let is_sale_stale = shown.iter().any(|(shown, least)| shown.sold < least.sold);
        let is_price_stale = shown.iter().any(|(shown, least)| shown.price < least.price);
        report.reads += 1;
        report.stale_sales += u64::from(is_sale_stale);
        report.stale_prices += u64::from(is_price_stale);
        Ok(())
    }

    /// The first number of a shelf: nine of ten are popular.
    fn draw_number(&mut self) -> u64 {
        let shown = if self.draws.below(10) > 0 { POPULAR } else { PRODUCTS };
        self.draws.below(shown - SHELF)
    }
}
