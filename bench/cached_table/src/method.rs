//! A way to read and to write a table.
use std::error::Error;
use std::ops::Range;
use std::path::PathBuf;

/// Rows of the table. Their keys are 0 and those after it.
pub const ROWS: u64 = 4000;

/// Processes of the application. Each has memory of its own.
pub const PROCESSES: u8 = 4;

/// So many rows are read at once before the turns.
const WARM_UP: usize = 100;

pub type Found<T> = Result<T, Box<dyn Error + Send + Sync>>;
pub type Done = Found<()>;

/// Where the servers are, and how long a body is.
#[derive(Clone, Debug)]
pub struct Place {
    pub postgres: String,
    pub redis: String,
    /// The lock files of krl's clients.
    pub folder: PathBuf,
    pub bytes: usize,
}

/// A key, and how often its row was changed.
pub type Counted = (u64, u64);

/// How a process of the application reads and writes.
pub trait Method {
    /// Reads the rows of these keys, all of which there are.
    fn read(&mut self, keys: Range<u64>, rows: &mut Vec<Counted>) -> Done;

    /// Changes a row, and returns how often it has been changed then.
    fn write(&mut self, key: u64) -> Found<u64>;

    /// Reads what can be kept, before the turns.
    fn warm_up(&mut self) -> Done {
        self.read_all()
    }

    /// Reads all rows once.
    fn read_all(&mut self) -> Done {
        let mut rows = Vec::new();
        (0..ROWS).step_by(WARM_UP).try_for_each(|lo| self.read(lo..lo + WARM_UP as u64, &mut rows))
    }
}

/// What Redis has of a row begins with how often the row was changed.
pub fn count_of(value: &[u8]) -> Found<u64> {
    Ok(u64::from_be_bytes(value.first_chunk().copied().ok_or("a value is too short")?))
}
