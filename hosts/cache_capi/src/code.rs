//! What a call returns.
use krl_cache::ReadError;

krl_ffi::codes! {
    Ok = 0, c"KRLCACHE_OK";
    Absent = 2, c"KRLCACHE_ABSENT";
    Miss = 5, c"KRLCACHE_MISS";
    IsNull = 8, c"KRLCACHE_IS_NULL";
    Misuse = 16, c"KRLCACHE_MISUSE";
    BadKey = 18, c"KRLCACHE_BAD_KEY";
    BadNumber = 20, c"KRLCACHE_BAD_NUMBER";
    BadAddress = 21, c"KRLCACHE_BAD_ADDRESS";
    BadTls = 23, c"KRLCACHE_BAD_TLS";
    Forked = 28, c"KRLCACHE_FORKED";
    Internal = 45, c"KRLCACHE_INTERNAL";
    OutOfMemory = 63, c"KRLCACHE_OUT_OF_MEMORY";
    Database = 80, c"KRLCACHE_DATABASE";
    NoExtension = 82, c"KRLCACHE_NO_EXTENSION";
    SeveralRows = 83, c"KRLCACHE_SEVERAL_ROWS";
    BadColumn = 84, c"KRLCACHE_BAD_COLUMN";
    System = 85, c"KRLCACHE_SYSTEM";
    Away = 86, c"KRLCACHE_AWAY";
}

impl From<&ReadError> for Code {
    fn from(error: &ReadError) -> Code {
        match error {
            ReadError::Database { .. } => Code::Database,
            ReadError::NoExtension => Code::NoExtension,
            ReadError::Key(_) => Code::BadKey,
            ReadError::SeveralRows(_) => Code::SeveralRows,
            ReadError::Column(_) => Code::BadColumn,
            ReadError::System(_) => Code::System,
            _ => Code::Internal,
        }
    }
}
