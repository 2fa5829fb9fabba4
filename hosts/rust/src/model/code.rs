//! What a call of the library returns, by name.
use std::fmt;

macro_rules! codes {
    ($($name:ident = $number:literal, $text:literal;)*) => {
        /// The code of a call of the library: `krl.h` describes each.
        #[derive(Clone, Copy, Debug, PartialEq, Eq)]
        #[non_exhaustive]
        pub enum Code {
            $(#[doc = $text] $name,)*
            /// A number that `krl.h` does not have.
            Other(u32),
        }

        impl Code {
            pub(crate) fn of(number: u32) -> Code {
                match number {
                    $($number => Code::$name,)*
                    other => Code::Other(other),
                }
            }
        }

        impl std::error::Error for Code {}

        impl fmt::Display for Code {
            fn fmt(&self, f: &mut fmt::Formatter<'_>) -> fmt::Result {
                match self {
                    $(Code::$name => f.write_str($text),)*
                    Code::Other(number) => {
                        write!(f, "the library returned the unknown code {number}")
                    }
                }
            }
        }
    };
}

codes! {
    Done = 0, "it is done";
    ReplyLost = 1, "it is done, but there was no memory for its answer";
    OutOfMemory = 2, "memory was refused";
    Closed = 3, "the handle is closed, or the server has not begun";
    OpenAlready = 4, "the handle is open already, or the server has begun";
    NoClient = 5, "the handle keeps a server";
    NoServer = 6, "the handle keeps a client";
    Gone = 7, "the client has left";
    BadMessage = 8, "the bytes are not a message";
    TooShort = 9, "there is too little room";
    Miss = 10, "the client does not know the whole range";
    Pending = 11, "a write to a key of the range is not answered yet";
    Alarm = 12, "a report contradicts what the server knows";
    BadClient = 13, "a client's number is 64 or more";
    Spent = 14, "no number is left for an incarnation, an epoch, a request, a write or a commit";
    BadRecord = 15, "a record that none can have, or a second one of its client";
    BadValue = 16, "a value has more than 32 bytes";
    BadKey = 17, "a key is 2^63 - 1 or more";
    Twice = 18, "a key occurs twice among the rows";
    Full = 19, "there are more rows than the server has room for";
    BadMode = 20, "it is not a mode";
    BadPoint = 21, "a point above 2^63 - 1, or a written key of 2^63 - 1 or more";
    BadSpan = 22, "a range does not begin below its end, or ends above 2^63";
    NotJoined = 23, "the client has learned no epoch yet";
    Busy = 24, "the client waits for the answer to a lock request";
    NotHeld = 25, "the client does not hold what it takes, or there is no such pin";
    Pinned = 26, "the range meets a pin";
    Writing = 27, "a write is not answered yet";
    TooManyPins = 28, "the client has eight pins";
    BadIncarnation = 29, "a client's incarnation is 0, or not greater than the registered one";
    BadShards = 30, "the bounds are not those of shards";
    BadRoom = 31, "room for no row, or for more than 1,048,576";
    Unkept = 32, "a note that has to be kept is not confirmed";
    NotReported = 33, "more notes were confirmed than were reported, or a commit that has not begun";
    BadReach = 34, "grants of no slot, or of more than 128";
    StillAnswers = 35, "the registered incarnation may still answer";
    LeaseEnded = 36, "the client's lease has ended";
}
