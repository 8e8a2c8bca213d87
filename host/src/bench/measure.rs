//! Times, their medians, tables and progress.

use std::time::Instant;

use super::work::SIZES;

/// Tells how far the run is, on standard error.
pub struct Progress {
    began: Instant,
}

impl Progress {
    pub fn begin() -> Progress {
        Progress { began: Instant::now() }
    }

    pub fn tell(&self, what: &str) {
        eprintln!("{:5.0} s  {what}", self.began.elapsed().as_secs_f64());
    }
}

/// The machine's load.
pub fn load() -> String {
    let all = std::fs::read_to_string("/proc/loadavg").unwrap_or_default();
    all.split(' ').next().unwrap_or_default().to_string()
}

/// Nanoseconds that it took: of the clock's and this thread's own the fewer, since the first go on while another process has the
/// core, and reading the second takes half a microsecond.
pub fn nanos(f: impl FnOnce()) -> f64 {
    let own = thread_seconds();
    let from = Instant::now();
    f();
    let passed = from.elapsed().as_secs_f64();
    passed.min(thread_seconds() - own) * 1e9
}

// Seconds that this thread has had a core.
fn thread_seconds() -> f64 {
    #[repr(C)]
    struct Time {
        seconds: i64,
        nanos: i64,
    }
    unsafe extern "C" {
        fn clock_gettime(clock: i32, time: *mut Time) -> i32;
    }
    const CLOCK_THREAD_CPUTIME_ID: i32 = 3;
    let mut time = Time { seconds: 0, nanos: 0 };
    // SAFETY: the call writes the struct that Linux defines for it on 64-bit machines.
    let failed = unsafe { clock_gettime(CLOCK_THREAD_CPUTIME_ID, &mut time) };
    assert_eq!(failed, 0, "no clock of the thread");
    time.seconds as f64 + time.nanos as f64 * 1e-9
}

pub fn median(mut all: Vec<f64>) -> f64 {
    all.sort_by(f64::total_cmp);
    all[all.len() / 2]
}

/// Does both, in changing order.
pub fn both<A, B>(repetition: usize, ours: impl FnOnce() -> A, theirs: impl FnOnce() -> B) -> (A, B) {
    if repetition.is_multiple_of(2) {
        let a = ours();
        (a, theirs())
    } else {
        let b = theirs();
        (ours(), b)
    }
}

/// Does each of three, in every order by turns, so that none finds more in the caches than another: what each gives.
pub fn in_turn(repetition: usize, all: [&mut dyn FnMut() -> f64; 3]) -> [f64; 3] {
    const ORDERS: [[usize; 3]; 6] = [[0, 1, 2], [2, 1, 0], [1, 2, 0], [0, 2, 1], [2, 0, 1], [1, 0, 2]];
    let mut given = [0.0; 3];
    for i in ORDERS[repetition % ORDERS.len()] {
        given[i] = all[i]();
    }
    given
}

/// The times of both sides.
#[derive(Clone, Default)]
pub struct Times {
    pub ours: Vec<f64>,
    pub theirs: Vec<f64>,
}

impl Times {
    pub fn push(&mut self, (ours, theirs): (f64, f64)) {
        self.ours.push(ours);
        self.theirs.push(theirs);
    }

    pub fn medians(self) -> Sides {
        Sides { ours: median(self.ours), theirs: median(self.theirs) }
    }
}

/// Medians of both sides, in nanoseconds.
#[derive(Clone, Copy)]
pub struct Sides {
    pub ours: f64,
    pub theirs: f64,
}

impl Sides {
    pub fn ratio(&self) -> f64 {
        self.ours / self.theirs
    }
}

/// What was measured of each label, at each number of runs.
pub struct Figures {
    pub labels: &'static [&'static str],
    pub columns: Vec<Vec<Sides>>,
}

impl Figures {
    /// Measures each number of runs in turn.
    pub fn measure(
        labels: &'static [&'static str],
        what: &str,
        progress: &Progress,
        mut column: impl FnMut(usize) -> Vec<Sides>,
    ) -> Figures {
        let columns = SIZES.map(|size| {
            progress.tell(&format!("{what}, {size} runs"));
            column(size)
        });
        Figures { labels, columns: columns.into() }
    }

    /// What was measured of some labels, at each number of runs.
    pub fn rows(&self, labels: &[&str]) -> Vec<Vec<Sides>> {
        let row = |label: &&str| self.labels.iter().position(|l| l == label).expect("a label of these figures");
        self.columns.iter().map(|column| labels.iter().map(|label| column[row(label)]).collect()).collect()
    }

    /// A table with a row for each label and a column for each number of runs; a cell is told its column and its row.
    pub fn table(&self, title: &str, cell: impl Fn([usize; 2], &Sides) -> String) {
        let rows = self.labels.iter().enumerate().map(|(row, &label)| {
            let cells = self.columns.iter().enumerate().map(|(at, c)| cell([at, row], &c[row]));
            (label, cells.collect())
        });
        table(title, &SIZES, rows);
    }

    /// Two tables: ratios, and times in a unit of so many nanoseconds.
    pub fn tell(&self, unit: &str, nanos: f64) {
        self.table("library / IntervalBitSet", |_, s| number(s.ratio()));
        let time = |t: f64| number(t / nanos);
        self.table(unit, |_, s| format!("{} / {}", time(s.ours), time(s.theirs)));
    }
}

/// A table with a row for each label and a column for each number of runs.
pub fn table<'a>(title: &str, sizes: &[usize], rows: impl Iterator<Item = (&'a str, Vec<String>)>) {
    let heads: Vec<String> = sizes.iter().map(|&size| format!("{} runs", number(size as f64))).collect();
    headed(title, &heads, rows);
}

/// A table with a row for each label and a column for each head.
pub fn headed<'a>(title: &str, heads: &[String], rows: impl Iterator<Item = (&'a str, Vec<String>)>) {
    println!("| {title} | {} |\n|{}", heads.join(" | "), "---|".repeat(1 + heads.len()));
    for (label, cells) in rows {
        println!("| {label} | {} |", cells.join(" | "));
    }
    println!();
}

/// A number with three digits at the least, and commas.
pub fn number(x: f64) -> String {
    if x < 9.995 {
        return format!("{x:.2}");
    }
    if x < 99.95 {
        return format!("{x:.1}");
    }
    commas(format!("{x:.0}"))
}

pub fn commas(mut digits: String) -> String {
    let mut at = digits.len();
    while at > 3 {
        at -= 3;
        digits.insert(at, ',');
    }
    digits
}
