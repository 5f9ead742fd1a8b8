//! `saigagalena_key_switch_batch` beside the same loops in Rust: words, time, stack.
//! scripts/bench_key_switch.sh builds and runs this; it stands outside the gate.
//!
//! Both sides get the same key and input, warm, one after the other in turn; a time is processor time, the
//! least of a side's rounds. Ours checks every length and every word of key and input; the Rust lengths only.

mod ported;
#[path = "../include/saigagalena.rs"]
mod saigagalena;

use ported::{
    ApproxSignedBasis, Barrett, KeySwitchingKey, LowBits, Native, Remainder, WideBarrett,
};
use saigagalena::{Tag, saigagalena_key_switch_batch, saigagalena_uncounted_tag};
use std::ffi::c_void;

unsafe extern "C" {
    fn clock_gettime(clock: i32, time: *mut [i64; 2]) -> i32;
    fn pthread_attr_init(attr: *mut ThreadAttributes) -> i32;
    fn pthread_attr_setstack(attr: *mut ThreadAttributes, lowest: *mut c_void, size: usize) -> i32;
    fn pthread_create(
        thread: *mut usize,
        attr: *const ThreadAttributes,
        start: extern "C" fn(*mut c_void) -> *mut c_void,
        argument: *mut c_void,
    ) -> i32;
    fn pthread_join(thread: usize, result: *mut *mut c_void) -> i32;
}

const PRIME: u32 = 0x7fff_ffff;
const SHAPES: [(usize, usize); 3] = [(630, 630), (1024, 571), (2048, 2048)];
const BASE_LOG: u32 = 4;
const BATCH: usize = 64;
const STACK_LIMIT: usize = 256 * 1024;

/// Seconds of this thread on a processor: what others run counts for little.
fn processor_seconds() -> f64 {
    const THREAD: i32 = 3; // CLOCK_THREAD_CPUTIME_ID of Linux
    let mut time = [0; 2];
    // SAFETY: a timespec of x86-64 is two 64-bit numbers.
    assert_eq!(unsafe { clock_gettime(THREAD, &mut time) }, 0);
    time[0] as f64 + time[1] as f64 * 1e-9
}

/// How the Rust side reduces.
#[derive(Clone, Copy, PartialEq)]
enum By {
    Wrap,
    LowBits,
    Barrett,
    WideBarrett,
    Remainder,
}

impl By {
    fn name(self) -> &'static str {
        match self {
            By::Wrap => "wrapping",
            By::LowBits => "its low bits",
            By::Barrett => "Barrett in words",
            By::WideBarrett => "Barrett, one 128-bit product",
            By::Remainder => "`%`",
        }
    }
}

fn modulus_name(modulus: u32) -> String {
    match modulus {
        0 => "native".to_string(),
        q => {
            let digits = q.to_string();
            let groups: Vec<&str> = digits
                .as_bytes()
                .rchunks(3)
                .rev()
                .map(|group| std::str::from_utf8(group).unwrap())
                .collect();
            format!("q = {}", groups.join(","))
        }
    }
}

struct Words(u64);

impl Words {
    fn next(&mut self) -> u32 {
        self.0 ^= self.0 << 13;
        self.0 ^= self.0 >> 7;
        self.0 ^= self.0 << 17;
        (self.0 >> 16) as u32
    }
    fn below(&mut self, bound: u32) -> u32 {
        ((self.next() as u64 * bound as u64) >> 32) as u32
    }
    /// Below q, uniform, as masks are.
    fn residue(&mut self, modulus: u32) -> u32 {
        if modulus == 0 {
            self.next()
        } else {
            self.below(modulus)
        }
    }
}

/// One batch with both outputs. The switch takes any key, so the key is random words.
struct Case {
    modulus: u32,
    base_log: u32,
    levels: usize,
    n: usize,
    m: usize,
    key: Vec<u32>,
    input: Vec<u32>,
    tags: Vec<Tag>,
    ours: Vec<u32>,
    rust: Vec<u32>,
}

impl Case {
    fn new(
        words: &mut Words,
        modulus: u32,
        base_log: u32,
        levels: usize,
        (n, m): (usize, usize),
        count: usize,
    ) -> Self {
        let level_count = ApproxSignedBasis::new(modulus, base_log, levels).level_count();
        let mut fill = |len: usize| {
            (0..len)
                .map(|_| words.residue(modulus))
                .collect::<Vec<u32>>()
        };
        Self {
            modulus,
            base_log,
            levels,
            n,
            m,
            key: fill(n * level_count * (m + 1)),
            input: fill(count * (n + 1)),
            // SAFETY: nothing goes in, and a tag comes out.
            tags: vec![unsafe { saigagalena_uncounted_tag() }; count],
            ours: vec![0xaaaa_aaaa; count * (m + 1)],
            rust: vec![0x5555_5555; count * (m + 1)],
        }
    }

    fn level_count(&self) -> usize {
        self.key.len() / (self.n * (self.m + 1))
    }

    fn run_ours(&mut self) -> u32 {
        // SAFETY: each pointer and length is one slice, alive and lent for the call.
        unsafe {
            saigagalena_key_switch_batch(
                self.modulus,
                self.base_log,
                self.levels as u32,
                self.n,
                self.m,
                self.key.as_ptr(),
                self.key.len(),
                self.input.as_ptr(),
                self.input.len(),
                self.tags.as_mut_ptr(),
                self.tags.len(),
                self.ours.as_mut_ptr(),
                self.ours.len(),
            )
        }
    }

    fn run_rust(&mut self, by: By) {
        let key = KeySwitchingKey {
            data: &self.key,
            input_dimension: self.n,
            output_dimension: self.m,
            basis: ApproxSignedBasis::new(self.modulus, self.base_log, self.levels),
        };
        let (input, out, q) = (&self.input, &mut self.rust, self.modulus);
        match by {
            By::Wrap => key.key_switch_batch_to::<true, _>(input, out, Native),
            By::LowBits => key.key_switch_batch_to::<false, _>(input, out, LowBits::new(q)),
            By::Barrett => key.key_switch_batch_to::<false, _>(input, out, Barrett::new(q)),
            By::WideBarrett => key.key_switch_batch_to::<false, _>(input, out, WideBarrett::new(q)),
            By::Remainder => key.key_switch_batch_to::<false, _>(input, out, Remainder { q }),
        }
    }

    fn time_ours(&mut self) -> f64 {
        self.ours.fill(0xaaaa_aaaa);
        let start = processor_seconds();
        let refusal = self.run_ours();
        let seconds = processor_seconds() - start;
        assert_eq!(refusal, 0, "refused {}", self.describe());
        seconds
    }

    fn time_rust(&mut self, by: By) -> f64 {
        self.rust.fill(0x5555_5555);
        let start = processor_seconds();
        self.run_rust(by);
        processor_seconds() - start
    }

    fn describe(&self) -> String {
        format!(
            "{}, base log {}, {} levels, n {}, m {}, {} ciphertexts",
            modulus_name(self.modulus),
            self.base_log,
            self.level_count(),
            self.n,
            self.m,
            self.input.len() / (self.n + 1)
        )
    }

    fn assert_same(&self) {
        assert!(self.ours == self.rust, "other words: {}", self.describe());
    }
}

fn least(times: &[f64]) -> f64 {
    times.iter().copied().fold(f64::INFINITY, f64::min)
}

fn median(times: &mut [f64]) -> f64 {
    times.sort_by(f64::total_cmp);
    times[times.len() / 2]
}

/// Random shapes and bases, every modulus from 4 on: both sides write the same words.
fn compare_words(words: &mut Words) {
    let batches = 4000;
    for _ in 0..batches {
        let bits = 3 + words.below(30);
        let modulus = match words.next() % 5 {
            0 => 0,
            1 => 1 << (bits - 1),
            2 => u32::MAX - words.below(5),
            _ => (words.next() >> (32 - bits)).max(4),
        };
        let value_bits = ApproxSignedBasis::new(modulus, 2, 1).value_bits();
        let highest = if modulus == 0 { 31 } else { modulus.ilog2() };
        let base_log = 2 + words.below(highest - 1);
        let levels = words.below(value_bits / base_log + 1) as usize;
        let shape = (1 + words.below(12) as usize, 1 + words.below(40) as usize);
        let count = words.below(20) as usize;
        let mut case = Case::new(words, modulus, base_log, levels, shape, count);
        // One word in eight at an end of its range.
        for word in case.input.iter_mut().chain(&mut case.key) {
            match words.next() % 16 {
                0 => *word = modulus.wrapping_sub(1 + *word % 2),
                1 => *word %= 2,
                _ => {}
            }
        }
        case.time_ours();
        case.time_rust(if modulus == 0 {
            By::Wrap
        } else {
            By::Remainder
        });
        case.assert_same();
    }
    println!(
        "{batches} random batches, native and explicit, every base log: the same words on both sides.\n"
    );
}

/// Times of ours and of each of the Rust's sides, in turn.
fn time_sides(case: &mut Case, sides: &[By]) -> (Vec<f64>, Vec<Vec<f64>>) {
    case.time_ours();
    let mut ours = Vec::new();
    let mut rust = vec![Vec::new(); sides.len()];
    for _ in 0..if case.n == 2048 { 7 } else { 15 } {
        for (by, times) in sides.iter().zip(&mut rust) {
            ours.push(case.time_ours());
            times.push(case.time_rust(*by));
            case.assert_same();
        }
    }
    (ours, rust)
}

fn print_times(case: &Case, by: By, ours: &mut [f64], rust: &mut [f64]) {
    println!(
        "| {} | {} / {} | {} | {} | {:.1} | {:.1} | {:.2} | {:.2} |",
        modulus_name(case.modulus),
        case.n,
        case.m,
        case.level_count(),
        by.name(),
        least(ours) * 1e3,
        least(rust) * 1e3,
        least(ours) / least(rust),
        median(ours) / median(rust),
    );
}

fn print_times_head() {
    println!(
        "Batch of {BATCH}, base log {BASE_LOG}, levels left open. Least processor time of each side, the sides in turn."
    );
    println!(
        "Wanted: native at most 1.00 of the Rust, a general modulus at most 0.30 of the Rust with Barrett.\n"
    );
    println!(
        "| modulus | n / m | levels | the Rust reduces by | ours, ms | Rust, ms | ours / Rust | by medians |"
    );
    println!("|---|---|---|---|---|---|---|---|");
}

fn compare_times(words: &mut Words) {
    print_times_head();
    let moduli: [(u32, &[By]); 3] = [
        (0, &[By::Wrap]),
        (65_536, &[By::LowBits, By::Barrett]),
        (PRIME, &[By::Barrett, By::WideBarrett, By::Remainder]),
    ];
    for (modulus, sides) in moduli {
        for (n, m) in SHAPES {
            let mut case = Case::new(words, modulus, BASE_LOG, 0, (n, m), BATCH);
            // Division on every word is slow: only where it costs little.
            let sides: Vec<By> = sides
                .iter()
                .copied()
                .filter(|&by| by != By::Remainder || n < 1000)
                .collect();
            let (mut ours, mut rust) = time_sides(&mut case, &sides);
            for (by, times) in sides.iter().zip(&mut rust) {
                print_times(&case, *by, &mut ours, times);
            }
        }
    }
    println!();
}

/// The start, then each quantity doubled and doubled again, alone.
#[rustfmt::skip]
const GROWTH: [[usize; 4]; 9] = [
    [1, 1, 1, 1],
    [2, 1, 1, 1], [4, 1, 1, 1],
    [1, 2, 1, 1], [1, 4, 1, 1],
    [1, 1, 2, 1], [1, 1, 4, 1],
    [1, 1, 1, 2], [1, 1, 1, 4],
];

/// The key is larger than a second-level cache from the start on.
fn compare_growth(words: &mut Words) {
    println!(
        "Our time when one quantity is doubled, and doubled again; from 32 ciphertexts, n 500, m 499, and 2, 1, 1 levels.\n"
    );
    println!("| modulus | ciphertexts | mask places n | output words m + 1 | levels |");
    println!("|---|---|---|---|---|");
    for (modulus, levels) in [(0, 2), (65_536, 1), (PRIME, 1)] {
        let mut cases: Vec<Case> = GROWTH
            .iter()
            .map(|[rows, places, width, depth]| {
                let shape = (500 * places, 500 * width - 1);
                Case::new(words, modulus, BASE_LOG, levels * depth, shape, 32 * rows)
            })
            .collect();
        let mut times = vec![f64::INFINITY; cases.len()];
        for _ in 0..9 {
            for (case, time) in cases.iter_mut().zip(&mut times) {
                *time = time.min(case.time_ours());
            }
        }
        print!("| {} |", modulus_name(modulus));
        for pair in times[1..].chunks_exact(2) {
            print!(" × {:.2}, × {:.2} |", pair[0] / times[0], pair[1] / pair[0]);
        }
        println!();
    }
    println!();
}

#[repr(C, align(16))]
struct ThreadAttributes([u8; 256]);

extern "C" fn call_ours(case: *mut c_void) -> *mut c_void {
    if !case.is_null() {
        // SAFETY: the spawner lends one Case and waits.
        unsafe { (*case.cast::<Case>()).time_ours() };
    }
    std::ptr::null_mut()
}

const PAINT: u64 = 0xa5c3_96f0_5a3c_690f;

/// Bytes of a painted stack below its top that a thread has touched.
fn touched(argument: *mut c_void) -> usize {
    let mut stack = vec![PAINT; (4 << 20) / 8 + 512];
    let offset = stack.as_ptr().align_offset(4096);
    let stack = &mut stack[offset..offset + (4 << 20) / 8];
    let mut attributes = ThreadAttributes([0; 256]);
    let mut thread = 0usize;
    // SAFETY: the stack is ours, aligned to a page, and outlives the joined thread.
    let answers = unsafe {
        [
            pthread_attr_init(&mut attributes),
            pthread_attr_setstack(&mut attributes, stack.as_mut_ptr().cast(), stack.len() * 8),
            pthread_create(&mut thread, &attributes, call_ours, argument),
            pthread_join(thread, std::ptr::null_mut()),
        ]
    };
    assert_eq!(answers, [0; 4], "the painted stack was refused");
    // SAFETY: read after the join; the other thread wrote behind the compiler's back.
    let untouched = (0..stack.len())
        .take_while(|&at| unsafe { std::ptr::read_volatile(&stack[at]) } == PAINT)
        .count();
    (stack.len() - untouched) * 8
}

fn measure_stack(words: &mut Words) {
    let idle = touched(std::ptr::null_mut());
    let mut most = 0;
    for modulus in [0, 65_536, PRIME] {
        for (shape, count) in [((64, 2048), BATCH), ((64, 2048), 1), ((2048, 2048), 8)] {
            let mut case = Case::new(words, modulus, BASE_LOG, 0, shape, count);
            most = most.max(touched((&raw mut case).cast()) - idle);
            case.time_rust(if modulus == 0 {
                By::Wrap
            } else {
                By::Remainder
            });
            case.assert_same();
        }
    }
    println!("Stack: at most {most} bytes touched of a painted stack, {STACK_LIMIT} allowed.");
    assert!(most < STACK_LIMIT, "too much stack");
}

fn main() {
    let mut words = Words(88_172_645_463_325_252);
    compare_words(&mut words);
    compare_times(&mut words);
    compare_growth(&mut words);
    measure_stack(&mut words);
}
