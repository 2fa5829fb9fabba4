//! Redis by hiredis, its own client in C: each read is asked, since that client keeps nothing.
use crate::redis::Redis;
use crate::system::{Caching, Connection, Done, Found, System, Table, row};
use krl::Row;
use std::ffi::{CStr, CString, c_char, c_int, c_void};
use std::ops::Range;
use std::ptr::NonNull;
use std::slice;

/// `redisContext` of hiredis 0.14 and later, as far as it is read here.
#[repr(C)]
struct Context {
    err: c_int,
    errstr: [c_char; 128],
}

/// `redisReply` of hiredis 0.14.
#[cfg(not(hiredis_1))]
#[repr(C)]
struct Reply {
    kind: c_int,
    integer: i64,
    length: usize,
    text: *const c_char,
    elements: usize,
    element: *const *const Reply,
}

/// `redisReply` of hiredis 1.0 and later.
#[cfg(hiredis_1)]
#[repr(C)]
struct Reply {
    kind: c_int,
    integer: i64,
    double: f64,
    length: usize,
    text: *const c_char,
    verbatim_type: [c_char; 4],
    elements: usize,
    element: *const *const Reply,
}

/// `REDIS_REPLY_STRING` and `REDIS_REPLY_ERROR`.
const TEXT: c_int = 1;
const ERROR: c_int = 6;

#[link(name = "hiredis")]
unsafe extern "C" {
    fn redisConnect(host: *const c_char, port: c_int) -> *mut Context;
    fn redisFree(context: *mut Context);
    fn redisCommandArgv(
        context: *mut Context,
        words: c_int,
        texts: *const *const c_char,
        lengths: *const usize,
    ) -> *mut c_void;
    fn freeReplyObject(reply: *mut c_void);
}

pub struct Hiredis {
    rows: Redis,
    address: String,
    table: Table,
}

impl Hiredis {
    pub fn new(address: &str, table: Table) -> Hiredis {
        Hiredis { rows: Redis::new(address, table), address: address.into(), table }
    }
}

impl System for Hiredis {
    fn name(&self) -> &'static str {
        "Redis by hiredis"
    }

    fn may_be_stale(&self) -> bool {
        false
    }

    fn make_rows(&mut self) -> Done {
        self.rows.make_rows()
    }

    fn connect(&self, _: u8, _: Caching) -> Found<Box<dyn Connection>> {
        let (host, port) = self.address.split_once(':').ok_or("an address has a port")?;
        let (host, port) = (CString::new(host)?, port.parse::<u16>()?);
        // SAFETY: the host is a string of C, which outlives the call.
        let context = unsafe { redisConnect(host.as_ptr(), port.into()) };
        let context = NonNull::new(context).ok_or("hiredis has no memory")?;
        let connection = Asking { context, table: self.table };
        connection.check()?;
        Ok(Box::new(connection))
    }
}

struct Asking {
    context: NonNull<Context>,
    table: Table,
}

// SAFETY: a context of hiredis may be used by any thread, by one at a time.
unsafe impl Send for Asking {}

impl Drop for Asking {
    fn drop(&mut self) {
        // SAFETY: the context came from redisConnect, and is freed once.
        unsafe { redisFree(self.context.as_ptr()) };
    }
}

/// A reply, which is freed when this value is gone.
struct Answer(NonNull<Reply>);

impl Drop for Answer {
    fn drop(&mut self) {
        // SAFETY: the reply came from redisCommandArgv, and is freed once.
        unsafe { freeReplyObject(self.0.as_ptr().cast()) };
    }
}

impl Answer {
    fn reply(&self) -> &Reply {
        // SAFETY: the reply lives until this value is gone.
        unsafe { self.0.as_ref() }
    }

    fn elements(&self) -> impl Iterator<Item = &Reply> {
        let reply = self.reply();
        let elements = match reply.elements {
            0 => &[],
            // SAFETY: a reply with elements has that many pointers to replies, which live as long.
            count => unsafe { slice::from_raw_parts(reply.element, count) },
        };
        // SAFETY: as above: none of these pointers is null.
        elements.iter().map(|it| unsafe { &**it })
    }
}

fn bytes(reply: &Reply) -> &[u8] {
    match reply.kind {
        // SAFETY: the text of such a reply has that many bytes, and lives as long as the reply.
        TEXT | ERROR => unsafe { slice::from_raw_parts(reply.text.cast(), reply.length) },
        _ => &[],
    }
}

impl Asking {
    fn check(&self) -> Done {
        // SAFETY: the context lives as long as this value.
        let context = unsafe { self.context.as_ref() };
        if context.err == 0 {
            return Ok(());
        }
        // SAFETY: hiredis ends the text of an error with a zero.
        let why = unsafe { CStr::from_ptr(context.errstr.as_ptr()) };
        Err(format!("hiredis: {}", why.to_string_lossy()).into())
    }

    fn call(&mut self, words: &[&[u8]]) -> Found<Answer> {
        let texts: Vec<*const c_char> = words.iter().map(|word| word.as_ptr().cast()).collect();
        let lengths: Vec<usize> = words.iter().map(|word| word.len()).collect();
        let count = c_int::try_from(words.len())?;
        let context = self.context.as_ptr();
        // SAFETY: there are as many texts and lengths as words, and hiredis copies them.
        let reply = unsafe { redisCommandArgv(context, count, texts.as_ptr(), lengths.as_ptr()) };
        let Some(reply) = NonNull::new(reply.cast()) else {
            self.check()?;
            return Err("hiredis has no reply".into());
        };
        let answer = Answer(reply);
        if answer.reply().kind == ERROR {
            return Err(String::from_utf8_lossy(bytes(answer.reply())).into());
        }
        Ok(answer)
    }
}

impl Connection for Asking {
    fn fill(&mut self, _: Range<u64>) -> Done {
        Ok(())
    }

    fn cached(&mut self, _: Range<u64>, _: &mut Vec<Row>) -> bool {
        false
    }

    fn read(&mut self, keys: Range<u64>, rows: &mut Vec<Row>) -> Done {
        let names: Vec<[u8; 8]> = keys.clone().map(u64::to_be_bytes).collect();
        let mut words: Vec<&[u8]> = vec![b"MGET"];
        words.extend(names.iter().map(|key| &key[..]));
        let answer = self.call(&words)?;
        rows.clear();
        for (key, value) in keys.zip(answer.elements()) {
            rows.push(row(key, bytes(value))?);
        }
        Ok(())
    }

    fn write(&mut self, key: u64, number: u64) -> Done {
        let value = self.table.value(number);
        self.call(&[b"SET", &key.to_be_bytes(), &value]).map(drop)
    }
}
