//! What a table counts, as C reads it.

/// The `krlcache_statistics` of the header.
#[derive(Clone, Copy, Debug)]
#[repr(C)]
#[allow(missing_docs, reason = "the header has it")]
pub struct Statistics {
    pub hits: u64,
    pub misses: u64,
    pub loads: u64,
    pub kept: u64,
    pub unkept: u64,
    pub away: u64,
    pub evictions: u64,
    pub keys: u64,
    pub bytes: u64,
}

impl From<krl_cache::Statistics> for Statistics {
    fn from(counted: krl_cache::Statistics) -> Statistics {
        Statistics {
            hits: counted.hits,
            misses: counted.misses,
            loads: counted.loads,
            kept: counted.kept,
            unkept: counted.unkept,
            away: counted.away,
            evictions: counted.evictions,
            keys: counted.keys,
            bytes: counted.bytes,
        }
    }
}
