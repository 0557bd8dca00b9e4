// SPDX-License-Identifier: MIT OR Apache-2.0
//! Rounds of all sides in turn, and the tables of what they took.

use std::hash::{DefaultHasher, Hash, Hasher};
use std::hint::black_box;
use std::process::{Command, Stdio};
use std::time::{Duration, Instant};

/// What is measured, each beside the original crate or another way: the tables have a group of
/// columns for each.
pub struct Ours {
    /// What tables and options call it.
    pub short: &'static str,
    /// What sentences and the picture call it.
    name: &'static str,
    /// For light and dark pages.
    colour: &'static str,
}

pub const OURS: [Ours; 3] = [
    Ours {
        short: "exports",
        name: "exports of the library",
        colour: "#3b82c4",
    },
    Ours {
        short: "proved",
        name: "exports of the proved archive",
        colour: "#2a8f6e",
    },
    Ours {
        short: "erased",
        name: "direct calls of the Rust crate",
        colour: "#c9822b",
    },
];

/// Which of `OURS` this program has: the exports that are linked into it, and the crate.
fn own() -> [usize; 2] {
    [usize::from(sathunne::is_proved()), 2]
}

/// What a program compares: its exports and the original crate after functions of the same
/// arguments, then the erased crate and the original one, both called directly.
pub type Sides<'a> = [Option<Side<'a>>; 4];

/// One of those: a round, which says what it took in seconds, and what it gave where that is wanted.
pub struct Side<'a>(Box<dyn FnMut(bool) -> (f64, u64) + 'a>);

impl<'a> Side<'a> {
    /// Rounds over a state, which is prepared before each, untimed. All sides have to give the
    /// same.
    pub fn over<S: 'a, T: Hash>(
        mut state: S,
        mut prepare: impl FnMut(&mut S) + 'a,
        mut round: impl FnMut(&mut S) + 'a,
        gives: impl Fn(&S) -> T + 'a,
    ) -> Side<'a> {
        Side(Box::new(move |is_asked| {
            prepare(&mut state);
            let begin = Instant::now();
            round(black_box(&mut state));
            let time = begin.elapsed().as_secs_f64();
            let mut hasher = DefaultHasher::new();
            if is_asked {
                gives(&state).hash(&mut hasher);
            }
            (time, hasher.finish())
        }))
    }

    /// Rounds that give a number.
    pub fn number(mut round: impl FnMut() -> u64 + 'a) -> Side<'a> {
        Side::over(0, |_| (), move |number| *number = round(), |number| *number)
    }

    /// Rounds that write over what they wrote before.
    pub fn writes<T: Clone + Hash + 'a>(
        items: Vec<T>,
        round: impl FnMut(&mut Vec<T>) + 'a,
    ) -> Side<'a> {
        Side::over(items, |_| (), round, Vec::clone)
    }
}

/// What the lines of a table are compared with.
#[derive(Clone, Copy, PartialEq)]
pub enum Beside {
    Nothing,
    /// The original crate. Only such lines can fail.
    Original,
    /// Another way to the same result, by its name.
    Other(&'static str),
    /// Another task, by its name: the ratio says how much more this one takes.
    Task(&'static str),
}

impl Beside {
    fn name(self) -> &'static str {
        match self {
            Beside::Nothing => "",
            Beside::Original => "the original",
            Beside::Other(name) | Beside::Task(name) => name,
        }
    }

    /// Whether both sides of a line do the same.
    fn is_same_task(self) -> bool {
        matches!(self, Beside::Original | Beside::Other(_))
    }
}

/// The ratios of the lines of one table, for each of `OURS`.
struct Group {
    title: String,
    beside: Beside,
    lines: [Vec<Line>; OURS.len()],
}

struct Line {
    name: String,
    /// Of the means of the processes' medians.
    ratio: f64,
    /// Of the rounds: above a tenth of their ratios, and above nine tenths.
    spread: (f64, f64),
}

impl Line {
    /// Whether ours takes more time than the original, beyond the noise.
    fn fails(&self) -> bool {
        self.ratio > 1.03 || self.ratio > 1.00 && self.spread.0 > 1.00
    }
}

/// Sorts numbers, and returns that above so many tenths of them.
pub fn quantile(numbers: &mut [f64], tenths: usize) -> f64 {
    numbers.sort_by(f64::total_cmp);
    numbers[numbers.len() * tenths / 10]
}

/// The times of the rounds of a process for one of `OURS`: of its side and of the one beside it, or
/// with each number of threads.
pub type Rounds = Vec<Vec<f64>>;

/// The mean of the processes' medians of a side, where it was timed.
pub fn mean_of_medians(processes: &[Rounds], side: usize) -> Option<f64> {
    let timed = processes.iter().filter(|rounds| !rounds[side].is_empty());
    let medians = timed.map(|rounds| quantile(&mut rounds[side].clone(), 5));
    let (sum, count) = medians.fold((0.0, 0), |(sum, count), median| (sum + median, count + 1));
    (count > 0).then(|| sum / f64::from(count))
}

/// How many times as long each round of one side took as that of another.
pub fn ratios(processes: &[Rounds], side: usize, other: usize) -> Vec<f64> {
    let pairs = processes
        .iter()
        .flat_map(|rounds| rounds[side].iter().zip(&rounds[other]));
    pairs.map(|(time, its)| time / its).collect()
}

/// Whether the rounds of a process tell which side takes more time: by thrice the standard error of a
/// median, which is half of what lies between the 10th and the 90th percentile by the root of how
/// many rounds there are.
fn tells(rounds: &Rounds) -> bool {
    let mut ratios = ratios(std::slice::from_ref(rounds), 0, 1);
    if ratios.is_empty() {
        return true;
    }
    let [low, median, high] = [1, 5, 9].map(|tenths| quantile(&mut ratios, tenths));
    let error = (high - low) / 2.0 / (ratios.len() as f64).sqrt();
    (median - 1.0).abs() > 3.0 * error
}

/// For how many times as long a line is measured at most, until its rounds tell which side takes more.
const MOST: u32 = 8;

/// Before the rounds of a line, where they are printed.
const ROUNDS: &str = "rounds of ";

/// Prints tables in Markdown, and keeps the ratios. Says on standard error which one it measures.
pub struct Report {
    budget: f64,
    rounds: usize,
    groups: Vec<Group>,
    begin: Instant,
    /// Which of `OURS` is timed, where the rounds are printed.
    printed: Option<usize>,
    /// For each other program which of `OURS` it times, and the rounds of the lines that are still
    /// to be measured.
    others: Vec<(usize, std::vec::IntoIter<String>)>,
}

impl Report {
    /// With so many seconds for each side of a line, and so many rounds at least.
    pub fn new(budget: f64, rounds: usize) -> Report {
        Report {
            budget,
            rounds,
            groups: Vec::new(),
            begin: Instant::now(),
            printed: None,
            others: Vec::new(),
        }
    }

    /// Times one of `OURS` and what is beside it only, and prints the rounds of each line, for a
    /// program that adds them.
    pub fn print_rounds(&mut self, which: usize) {
        assert!(own().contains(&which), "it has no {}", OURS[which].name);
        self.printed = Some(which);
    }

    /// Runs a program that measures the same lines and prints its rounds of one of `OURS`. This one
    /// then times none, but adds theirs.
    pub fn add_program(&mut self, which: usize, program: &mut Command) {
        let path = program.get_program().to_string_lossy().into_owned();
        self.progress(&path);
        let output = program
            .stderr(Stdio::inherit())
            .output()
            .expect("a program");
        assert!(output.status.success(), "{path} fails");
        let printed = String::from_utf8(output.stdout).expect("a text");
        let lines = printed.lines().filter_map(|line| line.strip_prefix(ROUNDS));
        let lines: Vec<String> = lines.map(str::to_string).collect();
        self.others.push((which, lines.into_iter()));
    }

    /// Whether this program times a side itself.
    pub fn times(&self, side: usize) -> bool {
        self.others.is_empty() && self.printed.is_none_or(|which| which == own()[side / 2])
    }

    /// The rounds of a line: for each of `OURS` those of each process. Those of this one are given,
    /// of its exports and of its crate, and printed where that is wanted.
    pub fn share(&mut self, name: &str, given: [Rounds; 2]) -> [Vec<Rounds>; OURS.len()] {
        let mut shared: [Vec<Rounds>; OURS.len()] = Default::default();
        for (which, rounds) in own().into_iter().zip(given) {
            if self.printed == Some(which) {
                let times = |side: &Vec<f64>| -> String {
                    let times: Vec<String> = side.iter().map(f64::to_string).collect();
                    times.join(" ")
                };
                let sides: Vec<String> = rounds.iter().map(times).collect();
                println!("{ROUNDS}{name}\t{}", sides.join("\t"));
            }
            shared[which].push(rounds);
        }
        for (which, lines) in &mut self.others {
            let line = lines.next().expect("the same lines");
            let mut fields = line.split('\t');
            assert_eq!(fields.next(), Some(name), "the same lines");
            let times = |side: &str| {
                let times = side.split_whitespace();
                times.map(|time| time.parse().expect("a time")).collect()
            };
            shared[*which].push(fields.map(times).collect());
        }
        shared
    }

    /// How many rounds a line has at least.
    pub fn rounds(&self) -> usize {
        self.rounds
    }

    /// Says what is done next, and how long all before it took.
    pub fn progress(&self, next: &str) {
        eprintln!("{:>4} s: {next}", self.begin.elapsed().as_secs());
    }

    /// Prints a title and a table's head: the first columns, and those for each of `OURS`.
    pub fn head(&self, title: &str, first: &str, columns: impl Fn(&str) -> String) {
        self.progress(title);
        let columns: String = OURS.iter().map(|ours| columns(ours.short)).collect();
        let head = format!("{first}{columns}");
        let numbers = "--:|".repeat(head.matches('|').count() - 2);
        println!("\n### {title}\n\n{head}\n|---|{numbers}");
    }

    /// Begins a table.
    pub fn heading(&mut self, title: &str, beside: Beside) {
        let other = beside.name().trim_start_matches("the ");
        self.head(title, "| |", |ours| match beside {
            Beside::Nothing => format!(" {ours}, ns |"),
            _ => format!(" {ours}, ns | {other}, ns | ratio | spread |"),
        });
        self.groups.push(Group {
            title: title.to_string(),
            beside,
            lines: Default::default(),
        });
    }

    /// Measures rounds of so many calls. Sides have to give the same, unless they differ on
    /// purpose.
    pub fn line(&mut self, name: &str, calls: usize, is_same: bool, mut sides: Sides) {
        let mut rounds = [vec![Vec::new(); 2], vec![Vec::new(); 2]];
        let gave: Vec<u64> = sides
            .iter_mut()
            .flatten()
            .map(|side| (side.0)(true).1)
            .collect();
        let has_same = gave.windows(2).all(|pair| pair[0] == pair[1]);
        assert!(!is_same || has_same, "{name}: the sides differ");
        let timed: Vec<usize> = (0..4)
            .filter(|&at| self.times(at) && sides[at].is_some())
            .collect();
        let group = self.groups.last().expect("a heading");
        let can_fail = group.beside == Beside::Original;
        let begin = Instant::now();
        let mut limit = Duration::from_secs_f64(self.budget * timed.len() as f64);
        let mut most = None;
        for round in 0.. {
            if timed.is_empty() {
                break;
            }
            if round >= self.rounds && begin.elapsed() > limit {
                let now = begin.elapsed();
                let most = *most.get_or_insert(now * MOST);
                if !can_fail || now > most || rounds.iter().all(tells) {
                    break;
                }
                limit = now * 2;
            }
            // each goes first in turn
            for k in 0..timed.len() {
                let at = timed[(k + round) % timed.len()];
                let time = sides[at].as_mut().map(|side| (side.0)(false).0);
                rounds[at / 2][at % 2].extend(time.map(|time| time * 1e9 / calls as f64));
            }
        }
        let shared = self.share(name, rounds);
        let group = self.groups.last_mut().expect("a heading");
        let digits = |time: f64| if time < 1e4 { 2 } else { 0 };
        let number = |time: f64| format!(" {time:.*}", digits(time));
        let text = |time: Option<f64>| time.map_or(String::new(), number);
        print!("| {name} |");
        for (processes, lines) in shared.iter().zip(&mut group.lines) {
            let medians = [0, 1].map(|side| mean_of_medians(processes, side));
            print!("{} |", text(medians[0]));
            if group.beside == Beside::Nothing {
                continue;
            }
            let [Some(ours), Some(theirs)] = medians else {
                print!("{} | | |", text(medians[1]));
                continue;
            };
            let ratio = ours / theirs;
            let mut ratios = ratios(processes, 0, 1);
            let spread = (quantile(&mut ratios, 1), quantile(&mut ratios, 9));
            let (low, high) = spread;
            print!("{} | {ratio:.2} | {low:.2} to {high:.2} |", number(theirs));
            let name = name.to_string();
            lines.push(Line {
                name,
                ratio,
                spread,
            });
        }
        println!();
    }

    /// Prints each line that takes more time than another way to the same result, and which of those
    /// beside the original fail. Returns how many fail.
    pub fn summary(&self) -> usize {
        let mut ways: Vec<Beside> = self.groups.iter().map(|group| group.beside).collect();
        ways.retain(|beside| beside.is_same_task());
        ways.sort_by_key(|beside| (*beside != Beside::Original, beside.name()));
        ways.dedup();
        let mut failures = 0;
        for beside in ways {
            for (which, ours) in OURS.iter().enumerate() {
                let groups = self.groups.iter().filter(|group| group.beside == beside);
                let mut lines: Vec<(&str, &Line)> = groups
                    .flat_map(|group| group.lines[which].iter().map(|it| (&*group.title, it)))
                    .collect();
                if lines.is_empty() {
                    continue;
                }
                lines.sort_by(|a, b| b.1.ratio.total_cmp(&a.1.ratio));
                let above = |bound: f64| lines.iter().filter(|it| it.1.ratio > bound).count();
                let (one, some, much) = (above(1.0), above(1.05), above(1.25));
                let fails = |line: &Line| beside == Beside::Original && line.fails();
                let failing = lines.iter().filter(|it| fails(it.1)).count();
                println!(
                    "\nOf {} lines of {} beside {}, by the ratio of the means of the medians: \
                     {one} above 1.00, {some} above 1.05, {much} above 1.25.{}\n",
                    lines.len(),
                    ours.name,
                    beside.name(),
                    match beside {
                        Beside::Original => format!(" {failing} fail."),
                        _ => String::new(),
                    }
                );
                for (title, line) in &lines[..one] {
                    let ((low, high), name) = (line.spread, &line.name);
                    let mark = if fails(line) { ", fails" } else { "" };
                    let ratio = line.ratio;
                    println!("- {ratio:.3} ({low:.2} to {high:.2}{mark}) {title}: {name}");
                }
                failures += failing;
            }
        }
        failures
    }

    /// A picture of the tables of two ways to the same result, by the ratios of the medians: their
    /// mean as a bar to the left or right of 1.00, and a line from the least to the greatest, on a
    /// logarithmic scale.
    pub fn picture(&self) -> String {
        const TOP: usize = 66;
        const BAR: usize = 15;
        const HEIGHT: usize = BAR * OURS.len() + 10;
        let is_drawn = |group: &&Group| {
            group.beside.is_same_task() && group.lines.iter().any(|lines| !lines.is_empty())
        };
        let groups: Vec<&Group> = self.groups.iter().filter(is_drawn).collect();
        let place = |ratio: f64| 640.0 + 100.0 * ratio.clamp(0.125, 8.0).log2();
        let bottom = TOP + HEIGHT * groups.len();
        let mut svg = format!(
            r##"<svg xmlns="http://www.w3.org/2000/svg" viewBox="0 0 990 {}"
  font-family="sans-serif" font-size="13" fill="#768390">
<text x="4" y="20">time / time of the original, means and extremes</text>
"##,
            bottom + 30,
        );
        for (ours, x) in OURS.iter().zip((4..).step_by(330)) {
            let Ours { name, colour, .. } = ours;
            svg += &format!("<text x=\"{x}\" y=\"42\" fill=\"{colour}\">&#9632; {name}</text>\n");
        }
        for tick in [0.125, 0.25, 0.5, 1.0, 2.0, 4.0, 8.0] {
            let (x, from, y) = (place(tick), TOP - 10, bottom + 18);
            let width = if tick == 1.0 { 2.0 } else { 0.5 };
            svg += &format!(r##"<path d="M{x} {from}V{bottom}" stroke="#768390" "##);
            svg += &format!("stroke-width=\"{width}\"/>\n");
            svg += &format!("<text x=\"{x}\" y=\"{y}\" text-anchor=\"middle\">{tick}</text>\n");
        }
        for (group, top) in groups.into_iter().zip((TOP..).step_by(HEIGHT)) {
            let beside = match group.beside {
                Beside::Original => String::new(),
                other => format!(", compared with {}", other.name()),
            };
            svg += &format!(
                "<text x=\"4\" y=\"{}\">{}{beside}</text>\n",
                top + HEIGHT / 2 - 1,
                group.title
            );
            for ((ours, lines), y) in OURS.iter().zip(&group.lines).zip((top..).step_by(BAR)) {
                let mut ratios: Vec<f64> = lines.iter().map(|line| line.ratio).collect();
                ratios.sort_by(f64::total_cmp);
                let (Some(least), Some(most)) = (ratios.first(), ratios.last()) else {
                    continue;
                };
                let sum: f64 = ratios.iter().map(|ratio| ratio.ln()).sum();
                let mean = (sum / ratios.len() as f64).exp();
                let (from, to) = (place(mean.min(1.0)), place(mean.max(1.0)));
                let (least, most, middle, base) = (place(*least), place(*most), y + 6, y + 10);
                let (width, end) = ((to - from).max(1.0), to.max(most) + 4.0);
                svg += &format!(r#"<rect x="{from:.1}" y="{y}" width="{width:.1}" height="12" "#);
                svg += &format!("fill=\"{}\"/>\n", ours.colour);
                svg += &format!(r##"<path d="M{least:.1} {middle}H{most:.1}" stroke="#768390"/>"##);
                svg += &format!("\n<text x=\"{end:.1}\" y=\"{base}\" font-size=\"11\">");
                svg += &format!("{mean:.2}</text>\n");
            }
        }
        svg + "</svg>\n"
    }
}
