//! Redis as a cache next to PostgreSQL, as it is usually done: a read asks Redis first, loads what is missing, and sets
//! it for a minute; a write commits, and then deletes the key in Redis.
use crate::method::{Counted, Done, Found, Method, Place, count_of};
use crate::plain::Plain;
use std::io::{BufRead, BufReader, Read, Write};
use std::net::TcpStream;
use std::ops::Range;

pub struct Aside {
    redis: Redis,
    postgres: Plain,
}

impl Aside {
    pub fn new(place: &Place) -> Found<Aside> {
        Ok(Aside { redis: Redis::connect(&place.redis)?, postgres: Plain::new(place, "plain")? })
    }
}

impl Method for Aside {
    fn read(&mut self, keys: Range<u64>, rows: &mut Vec<Counted>) -> Done {
        rows.clear();
        let mut missing = Vec::new();
        for (key, value) in keys.clone().zip(self.redis.get_all(keys)?) {
            match value {
                Some(value) => rows.push((key, count_of(&value)?)),
                None => missing.push(key.cast_signed()),
            }
        }
        if !missing.is_empty() {
            let loaded = self.postgres.some(&missing)?;
            rows.extend(loaded.iter().map(|(key, count, _)| (*key, *count)));
            let value = |(key, count, body): (u64, u64, Vec<u8>)| {
                (key, [&count.to_be_bytes()[..], &body].concat())
            };
            self.redis.set_all(&loaded.into_iter().map(value).collect::<Vec<_>>())?;
            rows.sort_unstable();
        }
        Ok(())
    }

    fn write(&mut self, key: u64) -> Found<u64> {
        let count = self.postgres.write(key)?;
        self.redis.delete(key)?;
        Ok(count)
    }
}

/// A connection to Redis, and the few commands that are needed.
struct Redis {
    stream: BufReader<TcpStream>,
    request: Vec<u8>,
}

impl Redis {
    fn connect(address: &str) -> Found<Redis> {
        let stream = TcpStream::connect(address)?;
        stream.set_nodelay(true)?;
        Ok(Redis { stream: BufReader::with_capacity(1 << 17, stream), request: Vec::new() })
    }

    fn put(&mut self, words: &[&[u8]]) -> Done {
        write!(self.request, "*{}\r\n", words.len())?;
        for word in words {
            write!(self.request, "${}\r\n", word.len())?;
            self.request.extend_from_slice(word);
            self.request.extend_from_slice(b"\r\n");
        }
        Ok(())
    }

    fn send(&mut self) -> Done {
        self.stream.get_mut().write_all(&self.request)?;
        self.request.clear();
        Ok(())
    }

    fn line(&mut self) -> Found<String> {
        let mut line = String::new();
        self.stream.read_line(&mut line)?;
        if line.starts_with('-') || line.is_empty() {
            return Err(format!("Redis: {line}").into());
        }
        Ok(line.trim_end().to_string())
    }

    fn bulk(&mut self) -> Found<Option<Vec<u8>>> {
        let line = self.line()?;
        let length: i64 = line.strip_prefix('$').ok_or("Redis answers no string")?.parse()?;
        let Ok(length) = usize::try_from(length) else { return Ok(None) };
        let mut bytes = vec![0; length + 2];
        self.stream.read_exact(&mut bytes)?;
        bytes.truncate(length);
        Ok(Some(bytes))
    }

    fn get_all(&mut self, keys: Range<u64>) -> Found<Vec<Option<Vec<u8>>>> {
        let names: Vec<Vec<u8>> = keys.map(name).collect();
        let mut words: Vec<&[u8]> = vec![b"MGET"];
        words.extend(names.iter().map(|name| &name[..]));
        self.put(&words)?;
        self.send()?;
        self.line()?;
        names.iter().map(|_| self.bulk()).collect()
    }

    fn set_all(&mut self, rows: &[(u64, Vec<u8>)]) -> Done {
        for (key, body) in rows {
            self.put(&[b"SET", &name(*key), body, b"EX", b"60"])?;
        }
        self.send()?;
        rows.iter().try_for_each(|_| self.line().map(drop))
    }

    fn delete(&mut self, key: u64) -> Done {
        self.put(&[b"DEL", &name(key)])?;
        self.send()?;
        self.line().map(drop)
    }
}

fn name(key: u64) -> Vec<u8> {
    format!("item:{key}").into_bytes()
}
