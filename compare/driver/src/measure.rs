//! Times of both sides, taken in turn, and what is made of them: a table and plots.

use std::hint::black_box;

pub const ROUNDS: usize = 15;

/// Nanoseconds of a call in each round.
pub struct Times(Vec<f64>);

impl Times {
    pub fn new(rounds: Vec<f64>) -> Self {
        Self(rounds)
    }

    /// The value that this share of the rounds stays below.
    pub fn at(&self, share: f64) -> f64 {
        let mut sorted = self.0.clone();
        sorted.sort_by(f64::total_cmp);
        sorted[((sorted.len() - 1) as f64 * share).round() as usize]
    }

    pub fn median(&self) -> f64 {
        self.at(0.5)
    }
}

#[repr(C)]
struct Timespec {
    seconds: i64,
    nanoseconds: i64,
}

extern "C" {
    fn clock_gettime(clock: i32, time: &mut Timespec) -> i32;
}

/// Nanoseconds that this thread has run: time given to other programs does not count.
pub fn thread_time() -> f64 {
    const CLOCK_THREAD_CPUTIME_ID: i32 = 3;
    let mut time = Timespec {
        seconds: 0,
        nanoseconds: 0,
    };
    assert_eq!(unsafe { clock_gettime(CLOCK_THREAD_CPUTIME_ID, &mut time) }, 0);
    time.seconds as f64 * 1e9 + time.nanoseconds as f64
}

/// How often a body is called in a round, so that a round takes some milliseconds.
fn repeats(mut body: impl FnMut()) -> u32 {
    let mut times = 1;
    loop {
        let start = thread_time();
        (0..times).for_each(|_| body());
        let taken = thread_time() - start;
        if taken > 2e6 || times > 1 << 20 {
            return ((f64::from(times) * 6e6 / taken) as u32).max(1);
        }
        times *= 4;
    }
}

fn time(repeats: u32, calls: u32, body: &mut impl FnMut()) -> f64 {
    let start = thread_time();
    for _ in 0..repeats {
        body();
    }
    (thread_time() - start) / f64::from(repeats) / f64::from(calls)
}

/// Both sides in turn; each body makes this many calls.
pub fn both(calls: u32, mut ours: impl FnMut(), mut theirs: impl FnMut()) -> (Times, Times) {
    let (n, m) = (repeats(&mut ours), repeats(&mut theirs));
    let rounds = (0..ROUNDS).map(|_| (time(n, calls, &mut ours), time(m, calls, &mut theirs)));
    let (a, b) = rounds.unzip();
    (Times(a), Times(b))
}

/// One side alone.
pub fn alone(calls: u32, mut ours: impl FnMut()) -> Times {
    let n = repeats(&mut ours);
    Times((0..ROUNDS).map(|_| time(n, calls, &mut ours)).collect())
}

/// The ratio of two sides round by round.
pub fn ratio(ours: &Times, theirs: &Times) -> Times {
    Times(ours.0.iter().zip(&theirs.0).map(|(a, b)| a / b).collect())
}

pub fn shown(nanoseconds: f64) -> String {
    match nanoseconds {
        n if n < 1e3 => format!("{n:.1} ns"),
        n if n < 1e6 => format!("{:.2} µs", n / 1e3),
        n => format!("{:.2} ms", n / 1e6),
    }
}

/// A ratio, with as many places as a small one needs.
fn parts(ratio: f64) -> String {
    if ratio < 0.01 {
        format!("{ratio:.5}")
    } else {
        format!("{ratio:.2}")
    }
}

/// A table row of Markdown.
pub fn line(name: &str, ours: &Times, theirs: Option<&Times>) {
    match theirs {
        Some(theirs) => {
            let r = ratio(ours, theirs);
            println!(
                "| {name} | {} | {} | {} | {} to {} |",
                shown(ours.median()),
                shown(theirs.median()),
                parts(r.median()),
                parts(r.at(0.1)),
                parts(r.at(0.9))
            );
        }
        None => println!(
            "| {name} | {} | | | {} to {} |",
            shown(ours.median()),
            shown(ours.at(0.1)),
            shown(ours.at(0.9))
        ),
    }
}

pub fn keep<T>(value: T) {
    black_box(value);
}

/// A line of a plot: its name, its colour, and points of (size, nanoseconds).
pub type Curve<'a> = (&'a str, &'a str, Vec<(f64, f64)>);

/// A plot with both axes in powers of ten.
pub fn plot(title: &str, across: &str, curves: &[Curve]) -> String {
    let points = || curves.iter().flat_map(|c| c.2.iter());
    let bounds = |pick: fn(&(f64, f64)) -> f64| {
        let logs = points().map(|p| pick(p).log10());
        (
            logs.clone().fold(f64::MAX, f64::min).floor(),
            logs.fold(f64::MIN, f64::max).ceil(),
        )
    };
    let (x0, x1) = bounds(|p| p.0);
    let (y0, y1) = bounds(|p| p.1);
    let x = |n: f64| 70.0 + 430.0 * (n.log10() - x0) / (x1 - x0);
    let y = |n: f64| 270.0 - 230.0 * (n.log10() - y0) / (y1 - y0);
    let mut svg = String::from(
        "<svg xmlns=\"http://www.w3.org/2000/svg\" width=\"640\" height=\"320\" font-family=\"sans-serif\" font-size=\"12\">\n\
         <rect width=\"640\" height=\"320\" fill=\"white\"/>\n",
    );
    svg += &format!("<text x=\"70\" y=\"22\" font-size=\"14\">{title}</text>\n<text x=\"285\" y=\"308\" text-anchor=\"middle\">{across}</text>\n");
    for e in y0 as i32..=y1 as i32 {
        let at = y(10f64.powi(e));
        svg += &format!("<line x1=\"70\" x2=\"500\" y1=\"{at:.1}\" y2=\"{at:.1}\" stroke=\"#ddd\"/>\n");
        svg += &format!(
            "<text x=\"64\" y=\"{:.1}\" text-anchor=\"end\">{}</text>\n",
            at + 4.0,
            short(10f64.powi(e))
        );
    }
    let mut sizes: Vec<f64> = points().map(|p| p.0).collect();
    sizes.sort_by(f64::total_cmp);
    sizes.dedup();
    for size in sizes {
        svg += &format!("<text x=\"{:.1}\" y=\"288\" text-anchor=\"middle\">{size}</text>\n", x(size));
    }
    for (i, (name, colour, line)) in curves.iter().enumerate() {
        let at: Vec<String> = line.iter().map(|(a, b)| format!("{:.1},{:.1}", x(*a), y(*b))).collect();
        svg += &format!(
            "<polyline points=\"{}\" fill=\"none\" stroke=\"{colour}\" stroke-width=\"2\"/>\n",
            at.join(" ")
        );
        svg += &format!("<text x=\"508\" y=\"{}\" fill=\"{colour}\">{name}</text>\n", 60 + 18 * i);
    }
    svg + "</svg>\n"
}

fn short(nanoseconds: f64) -> String {
    match nanoseconds {
        n if n < 1e3 => format!("{n} ns"),
        n if n < 1e6 => format!("{} µs", n / 1e3),
        n if n < 1e9 => format!("{} ms", n / 1e6),
        n => format!("{} s", n / 1e9),
    }
}
