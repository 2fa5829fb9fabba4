//! Redis in front of the database, as it is usually done: a read asks Redis first, loads what is
//! missing, and sets it for a minute; a sale commits, and then deletes the key in Redis. Whoever
//! writes by SQL does not know of Redis.
use crate::database::Database;
use crate::{Found, Place, Product, Shop, Way};
use std::io::{BufRead, BufReader, Read, Write};
use std::net::TcpStream;
use std::ops::Range;

/// A process that reads by Redis.
pub struct Aside {
    redis: BufReader<TcpStream>,
    database: Database,
}

impl Aside {
    pub fn open(place: &Place, redis: &str) -> Found<Aside> {
        let stream = TcpStream::connect(redis)?;
        stream.set_nodelay(true)?;
        let database = Database::connect(&place.database, Way::Redis.table())?;
        Ok(Aside { redis: BufReader::new(stream), database })
    }

    /// Sends commands of Redis, each of which is a list of words.
    fn send(&mut self, commands: &[Vec<String>]) -> Found<()> {
        let mut request = Vec::new();
        for words in commands {
            write!(request, "*{}\r\n", words.len())?;
            for word in words {
                write!(request, "${}\r\n{word}\r\n", word.len())?;
            }
        }
        Ok(self.redis.get_mut().write_all(&request)?)
    }

    /// A line of an answer.
    fn line(&mut self) -> Found<String> {
        let mut line = String::new();
        self.redis.read_line(&mut line)?;
        if line.is_empty() || line.starts_with('-') {
            return Err(format!("Redis answers '{}'", line.trim_end()).into());
        }
        Ok(line.trim_end().to_string())
    }

    /// A product that may be missing: its value is how often it was sold, and its price.
    fn product(&mut self, number: u64) -> Found<Option<Product>> {
        let line = self.line()?;
        let length: i64 = line.trim_start_matches('$').parse()?;
        let Ok(length) = usize::try_from(length) else { return Ok(None) };
        let mut bytes = vec![0; length + 2];
        self.redis.read_exact(&mut bytes)?;
        let value = String::from_utf8(bytes)?;
        let (sold, price) = value.trim_end().split_once(' ').ok_or("a value is no product")?;
        Ok(Some(Product { number, sold: sold.parse()?, price: price.parse()? }))
    }
}

impl Shop for Aside {
    fn shelf(&mut self, numbers: Range<u64>) -> Found<Vec<Product>> {
        let words = ["MGET".to_string()].into_iter().chain(numbers.clone().map(name));
        self.send(&[words.collect()])?;
        self.line()?;
        let (mut products, mut missing) = (Vec::new(), Vec::new());
        for number in numbers {
            match self.product(number)? {
                Some(product) => products.push(product),
                None => missing.push(number.cast_signed()),
            }
        }
        if !missing.is_empty() {
            let loaded = self.database.load(&missing)?;
            let set = |Product { number, sold, price }: &Product| {
                let value = format!("{sold} {price}");
                ["SET", &name(*number), &value, "EX", "60"].map(str::to_string).to_vec()
            };
            self.send(&loaded.iter().map(set).collect::<Vec<_>>())?;
            loaded.iter().try_for_each(|_| self.line().map(drop))?;
            products.extend(loaded);
            products.sort_unstable();
        }
        Ok(products)
    }

    fn sell(&mut self, number: u64) -> Found<u64> {
        let sold = self.database.sell(number)?;
        self.send(&[vec!["DEL".to_string(), name(number)]])?;
        self.line()?;
        Ok(sold)
    }

    fn read_from_memory(&self) -> u64 {
        0
    }

    fn leave(self: Box<Self>) {}
}

fn name(number: u64) -> String {
    format!("product:{number}")
}
