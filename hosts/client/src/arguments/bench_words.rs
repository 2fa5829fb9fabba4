//! The words of a benchmark.
use clap::Args;

/// What is measured.
#[derive(Clone, Debug, Args)]
pub struct BenchWords {
    /// Clients, each with a number and a cache of its own
    #[arg(
        long,
        value_name = "N",
        default_value_t = 1,
        value_parser = clap::value_parser!(u8).range(1..=64)
    )]
    pub clients: u8,
    /// Threads of each client
    #[arg(
        long,
        value_name = "N",
        default_value_t = 1,
        value_parser = clap::value_parser!(u16).range(1..=256)
    )]
    pub threads: u16,
    /// Readers next to the clients, without a number and a cache: each asks the server for every read
    #[arg(
        long,
        value_name = "N",
        default_value_t = 0,
        value_parser = clap::value_parser!(u16).range(0..=1024)
    )]
    pub readers: u16,
    /// How long the clients work before it measures, in seconds
    #[arg(
        long,
        value_name = "S",
        default_value_t = 1,
        value_parser = clap::value_parser!(u64).range(0..=3600)
    )]
    pub warm_up: u64,
    /// How long it measures, in seconds
    #[arg(
        long,
        value_name = "S",
        default_value_t = 5,
        value_parser = clap::value_parser!(u64).range(1..=86_400)
    )]
    pub seconds: u64,
    /// The percentages of the calls that read and of those that write
    #[arg(long, value_name = "READ,WRITE", default_value = "95,5")]
    pub mix: Mix,
    /// Rows that it makes, reads and deletes again
    #[arg(
        long,
        value_name = "N",
        default_value_t = 1000,
        value_parser = clap::value_parser!(u64).range(1..=65_536)
    )]
    pub keys: u64,
    /// The least key of these rows
    #[arg(long, value_name = "KEY", default_value_t = 0)]
    pub first_key: u64,
    /// Which keys are read and written: uniform, zipf, or zipf:EXPONENT, such as zipf:1.5
    #[arg(long, value_name = "SKEW", default_value = "uniform")]
    pub skew: Skew,
    /// Rows of each read
    #[arg(
        long,
        value_name = "N",
        default_value_t = 10,
        value_parser = clap::value_parser!(u64).range(1..=65_536)
    )]
    pub rows: u64,
    /// At most this many calls a second, of all threads of clients together; by default as many as
    /// they can make
    #[arg(
        long,
        value_name = "N",
        value_parser = clap::value_parser!(u32).range(1..=1_000_000)
    )]
    pub rate: Option<u32>,
    /// Bytes of each value
    #[arg(
        long,
        value_name = "BYTES",
        default_value_t = 8,
        value_parser = clap::value_parser!(u8).range(0..=32)
    )]
    pub value_size: u8,
}

/// The percentage of the calls that read. The others write.
#[derive(Clone, Copy, Debug, PartialEq, Eq)]
pub struct Mix {
    pub reads: u32,
}

impl std::str::FromStr for Mix {
    type Err = String;

    fn from_str(word: &str) -> Result<Mix, String> {
        let parts = word.split_once(',').and_then(|(reads, writes)| {
            Some((reads.parse::<u32>().ok()?, writes.parse::<u32>().ok()?))
        });
        parts
            .filter(|(reads, writes)| reads.checked_add(*writes) == Some(100))
            .map(|(reads, _)| Mix { reads })
            .ok_or_else(|| "two numbers whose sum is 100 are expected, such as 95,5".into())
    }
}

/// Which keys are chosen.
#[derive(Clone, Copy, Debug, PartialEq)]
pub enum Skew {
    Uniform,
    /// The key of rank r has the weight 1 / r^exponent.
    Zipf(f64),
}

impl std::str::FromStr for Skew {
    type Err = String;

    fn from_str(word: &str) -> Result<Skew, String> {
        let exponent = match word {
            "uniform" => return Ok(Skew::Uniform),
            "zipf" => Some(1.0),
            _ => word.strip_prefix("zipf:").and_then(|exponent| exponent.parse().ok()),
        };
        exponent
            .filter(|exponent: &f64| (0.0..=10.0).contains(exponent))
            .map(Skew::Zipf)
            .ok_or_else(|| "uniform, zipf, or zipf:EXPONENT of 0 to 10 is expected".into())
    }
}

#[cfg(test)]
mod tests {
    use super::*;

    #[test]
    fn mixes_and_skews() {
        assert_eq!("95,5".parse(), Ok(Mix { reads: 95 }));
        assert_eq!("100,0".parse(), Ok(Mix { reads: 100 }));
        for word in ["95", "95,6", "a,b", "-5,105", "4294967295,101"] {
            assert!(word.parse::<Mix>().is_err(), "{word}");
        }
        assert_eq!("zipf".parse(), Ok(Skew::Zipf(1.0)));
        assert_eq!("zipf:0.5".parse(), Ok(Skew::Zipf(0.5)));
        for word in ["zipf:", "zipf:-1", "zipf:NaN", "zipf:inf", "normal"] {
            assert!(word.parse::<Skew>().is_err(), "{word}");
        }
    }
}
