// The twin of main.rt.txt in Rust: the five calls as tables written by hand, with no bounds checks, over
// the same pairs of modes. Modes are numbered from 0 in the order of `Mode::ALL`.
const PAIRS: usize = 4096;
const ROUNDS: u32 = 10000;

static COMPATIBLE: [[u8; 13]; 13] = [
    [1, 1, 1, 1, 1, 1, 1, 1, 1, 1, 1, 1, 1],
    [1, 1, 1, 0, 1, 1, 1, 1, 1, 0, 1, 1, 0],
    [1, 1, 0, 0, 1, 0, 1, 1, 0, 0, 1, 0, 0],
    [1, 0, 0, 0, 0, 0, 1, 0, 0, 0, 0, 0, 0],
    [1, 1, 1, 0, 1, 1, 0, 0, 0, 0, 0, 0, 0],
    [1, 1, 0, 0, 1, 0, 0, 0, 0, 0, 0, 0, 0],
    [1, 1, 1, 1, 0, 0, 1, 1, 1, 1, 0, 0, 0],
    [1, 1, 1, 0, 0, 0, 1, 1, 1, 0, 0, 0, 0],
    [1, 1, 0, 0, 0, 0, 1, 1, 0, 0, 0, 0, 0],
    [1, 0, 0, 0, 0, 0, 1, 0, 0, 0, 0, 0, 0],
    [1, 1, 1, 0, 0, 0, 0, 0, 0, 0, 0, 0, 0],
    [1, 1, 0, 0, 0, 0, 0, 0, 0, 0, 0, 0, 0],
    [1, 0, 0, 0, 0, 0, 0, 0, 0, 0, 0, 0, 0],
];

static AT_MOST: [[u8; 13]; 13] = [
    [1, 1, 1, 1, 1, 1, 1, 1, 1, 1, 1, 1, 1],
    [0, 1, 1, 1, 1, 1, 0, 1, 1, 1, 1, 1, 1],
    [0, 0, 1, 1, 0, 1, 0, 0, 1, 1, 0, 1, 1],
    [0, 0, 0, 1, 0, 0, 0, 0, 0, 1, 0, 0, 1],
    [0, 0, 0, 0, 1, 1, 0, 0, 0, 0, 1, 1, 1],
    [0, 0, 0, 0, 0, 1, 0, 0, 0, 0, 0, 1, 1],
    [0, 0, 0, 0, 0, 0, 1, 1, 1, 1, 1, 1, 1],
    [0, 0, 0, 0, 0, 0, 0, 1, 1, 1, 1, 1, 1],
    [0, 0, 0, 0, 0, 0, 0, 0, 1, 1, 0, 1, 1],
    [0, 0, 0, 0, 0, 0, 0, 0, 0, 1, 0, 0, 1],
    [0, 0, 0, 0, 0, 0, 0, 0, 0, 0, 1, 1, 1],
    [0, 0, 0, 0, 0, 0, 0, 0, 0, 0, 0, 1, 1],
    [0, 0, 0, 0, 0, 0, 0, 0, 0, 0, 0, 0, 1],
];

static JOIN: [[u8; 13]; 13] = [
    [0, 1, 2, 3, 4, 5, 6, 7, 8, 9, 10, 11, 12],
    [1, 1, 2, 3, 4, 5, 7, 7, 8, 9, 10, 11, 12],
    [2, 2, 2, 3, 5, 5, 8, 8, 8, 9, 11, 11, 12],
    [3, 3, 3, 3, 12, 12, 9, 9, 9, 9, 12, 12, 12],
    [4, 4, 5, 12, 4, 5, 10, 10, 11, 12, 10, 11, 12],
    [5, 5, 5, 12, 5, 5, 11, 11, 11, 12, 11, 11, 12],
    [6, 7, 8, 9, 10, 11, 6, 7, 8, 9, 10, 11, 12],
    [7, 7, 8, 9, 10, 11, 7, 7, 8, 9, 10, 11, 12],
    [8, 8, 8, 9, 11, 11, 8, 8, 8, 9, 11, 11, 12],
    [9, 9, 9, 9, 12, 12, 9, 9, 9, 9, 12, 12, 12],
    [10, 10, 11, 12, 10, 11, 10, 10, 11, 12, 10, 11, 12],
    [11, 11, 11, 12, 11, 11, 11, 11, 11, 12, 11, 11, 12],
    [12, 12, 12, 12, 12, 12, 12, 12, 12, 12, 12, 12, 12],
];

static MEET: [[u8; 13]; 13] = [
    [0, 0, 0, 0, 0, 0, 0, 0, 0, 0, 0, 0, 0],
    [0, 1, 1, 1, 1, 1, 0, 1, 1, 1, 1, 1, 1],
    [0, 1, 2, 2, 1, 2, 0, 1, 2, 2, 1, 2, 2],
    [0, 1, 2, 3, 1, 2, 0, 1, 2, 3, 1, 2, 3],
    [0, 1, 1, 1, 4, 4, 0, 1, 1, 1, 4, 4, 4],
    [0, 1, 2, 2, 4, 5, 0, 1, 2, 2, 4, 5, 5],
    [0, 0, 0, 0, 0, 0, 6, 6, 6, 6, 6, 6, 6],
    [0, 1, 1, 1, 1, 1, 6, 7, 7, 7, 7, 7, 7],
    [0, 1, 2, 2, 1, 2, 6, 7, 8, 8, 7, 8, 8],
    [0, 1, 2, 3, 1, 2, 6, 7, 8, 9, 7, 8, 9],
    [0, 1, 1, 1, 4, 4, 6, 7, 7, 7, 10, 10, 10],
    [0, 1, 2, 2, 4, 5, 6, 7, 8, 8, 10, 11, 11],
    [0, 1, 2, 3, 4, 5, 6, 7, 8, 9, 10, 11, 12],
];

static CAP: [u8; 13] = [12, 11, 10, 6, 5, 4, 9, 8, 7, 6, 2, 1, 0];

#[repr(C)]
struct Timespec {
    seconds: i64,
    nanos: i64,
}

unsafe extern "C" {
    fn clock_gettime(clock: i32, time: *mut Timespec) -> i32;
}

const THREAD_CPU_TIME: i32 = 3;

fn cpu_nanos() -> i64 {
    let mut time = Timespec { seconds: 0, nanos: 0 };
    // SAFETY: `time` is a whole timespec.
    unsafe { clock_gettime(THREAD_CPU_TIME, &mut time) };
    time.seconds * 1_000_000_000 + time.nanos
}

fn inputs() -> [u8; PAIRS] {
    let mut modes = [0; PAIRS];
    let mut word: u64 = 1;
    for mode in &mut modes {
        word = word
            .wrapping_mul(6364136223846793005)
            .wrapping_add(1442695040888963407);
        *mode = ((word >> 33) % 13) as u8;
    }
    modes
}

fn time(name: &str, modes: &[u8], call: impl Fn(u8, u8) -> u8) {
    let start = cpu_nanos();
    let mut sum: u64 = 0;
    for _ in 0..ROUNDS {
        let mut last = 0;
        for mode in std::hint::black_box(modes) {
            sum = sum.wrapping_add(u64::from(call(last, *mode)));
            last = *mode;
        }
    }
    let took = cpu_nanos() - start;
    println!("{name} {} {} {sum}", took / 1_000_000_000, took % 1_000_000_000);
}

fn cell(table: &[[u8; 13]; 13], a: u8, b: u8) -> u8 {
    // SAFETY: each mode is below 13.
    unsafe { *table.get_unchecked(a as usize).get_unchecked(b as usize) }
}

fn main() {
    let modes = inputs();
    time("compatible", &modes, |a, b| cell(&COMPATIBLE, a, b));
    time("at_most", &modes, |a, b| cell(&AT_MOST, a, b));
    time("join", &modes, |a, b| cell(&JOIN, a, b));
    time("meet", &modes, |a, b| cell(&MEET, a, b));
    // SAFETY: as above.
    time("cap", &modes, |_, b| unsafe { *CAP.get_unchecked(b as usize) });
}
