//! The jobs of the programs `texts` and `console`, written by hand in plain Rust, to measure those against.
//!
//! `baseline texts` writes the report of each text on standard input. `baseline console` plays a list of calls; of
//! those of docs/CONSOLE.md it knows bench, load, judge, verdict, bound, begin, release, advance, worst and stop. A
//! right table gets the same answers, byte for byte. At a text or a call that it does not play it ends with status 1
//! and says so on standard error: what is refused where is not its job.
//!
//! The most work of an angular task is worked out window by window. With the word `stretches` behind, it is worked out
//! for many windows at once, by instructions that take several numbers each.
//!
//! It needs the standard library alone. benchmark/run.py builds it.

use std::fmt;
use std::io::{self, BufWriter, Read, Write};
use std::process::ExitCode;

const PLACES: usize = 16;
const ANGULARS: usize = 8;
const MODES: usize = 16;
const WINDOW: u32 = 1000;
const WINDOWS: usize = 1001;
const GAP: u32 = 100_000;
const NUMBERS: u32 = 999;
const TEXT: usize = 65_535;
const CLOCK: u32 = 1_000_000;
const ADVANCE: u32 = 1000;

type Done<T> = Result<T, String>;

// The table

#[derive(Clone, Copy)]
struct Mode {
    cost: u32,
    deadline: u32,
}

enum Make {
    Sporadic {
        period: u32,
    },
    /// The gaps between two modes, 0 where there is none, and the most work in each window.
    Angular {
        gaps: [[u32; MODES]; MODES],
        most: Vec<u32>,
    },
}

struct Task {
    number: u32,
    modes: Vec<Mode>,
    make: Make,
}

impl Task {
    fn gap(&self, from: usize, to: usize) -> Option<u32> {
        match &self.make {
            Make::Sporadic { period } => Some(*period),
            Make::Angular { gaps, .. } => Some(gaps[from][to]).filter(|gap| *gap > 0),
        }
    }

    /// Adds the most work of the task in each window to a row.
    fn add_most(&self, row: &mut [u32]) {
        match &self.make {
            Make::Sporadic { period } => {
                let mut work = 0;
                for jobs in row[1..].chunks_mut(*period as usize) {
                    work += self.modes[0].cost;
                    jobs.iter_mut().for_each(|sum| *sum += work);
                }
            }
            Make::Angular { most, .. } => row.iter_mut().zip(most).for_each(|(sum, work)| *sum += work),
        }
    }
}

#[derive(Clone, Copy)]
enum Verdict {
    Fits,
    Over { task: u32, mode: usize },
}

impl fmt::Display for Verdict {
    fn fmt(&self, f: &mut fmt::Formatter<'_>) -> fmt::Result {
        match self {
            Verdict::Fits => write!(f, "fits"),
            Verdict::Over { task, mode } => write!(f, "over {task} {mode}"),
        }
    }
}

type Bounds = [[u32; MODES]; PLACES];

/// The least window within the deadline that holds the cost and the work of the tasks above.
fn bound(above: &[u32], mode: Mode) -> Option<u32> {
    // The work above never falls as the window grows.
    let mut window = mode.cost;
    while window <= mode.deadline {
        let work = mode.cost + above[window as usize];
        if work <= window {
            return Some(window);
        }
        window = work;
    }
    None
}

fn judge(tasks: &[Task], bounds: &mut Bounds) -> Verdict {
    *bounds = [[0; MODES]; PLACES];
    let mut above = [0; WINDOWS];
    for (place, task) in tasks.iter().enumerate() {
        for (mode, numbers) in task.modes.iter().enumerate() {
            match bound(&above, *numbers) {
                Some(window) => bounds[place][mode] = window,
                None => return Verdict::Over { task: task.number, mode },
            }
        }
        task.add_most(&mut above);
    }
    Verdict::Fits
}

// The most work of an angular task

/// How the most work is worked out: window by window, or many windows at once, as many as the least gap has ticks.
#[derive(Clone, Copy)]
enum Way {
    Windows,
    Stretches,
}

/// The links out of each mode that fit a window, by rising gap: the gap, and where the next mode's row begins.
type Links = Vec<Vec<(usize, usize)>>;

/// The greatest work of a walk from each mode in each window, used again for each task.
struct Sheet {
    cells: Vec<u32>,
    way: Way,
}

impl Sheet {
    fn new(way: Way) -> Sheet {
        Sheet { cells: vec![0; MODES * WINDOWS], way }
    }

    /// The greatest work of a walk in each window.
    fn most(&mut self, modes: &[Mode], gaps: &[[u32; MODES]; MODES]) -> Vec<u32> {
        let links: Links = gaps[..modes.len()]
            .iter()
            .map(|row| {
                let there = row.iter().enumerate().filter(|(_, gap)| **gap > 0 && **gap < WINDOW);
                let mut links: Vec<_> = there.map(|(to, gap)| (*gap as usize, to * WINDOWS)).collect();
                links.sort_unstable();
                links
            })
            .collect();
        let mut most = vec![0; WINDOWS];
        match self.way {
            Way::Windows => self.by_windows(modes, &links, &mut most),
            Way::Stretches => self.by_stretches(modes, &links, &mut most),
        }
        most
    }

    /// In one pass over links and windows.
    fn by_windows(&mut self, modes: &[Mode], links: &Links, most: &mut [u32]) {
        let cells = &mut self.cells[..modes.len() * WINDOWS];
        for m in 0..modes.len() {
            cells[m * WINDOWS] = 0;
        }
        for w in 1..WINDOWS {
            for (m, mode) in modes.iter().enumerate() {
                let mut next = 0;
                for &(gap, to) in &links[m] {
                    if gap >= w {
                        break;
                    }
                    next = next.max(cells[to + w - gap]);
                }
                let work = mode.cost + next;
                cells[m * WINDOWS + w] = work;
                most[w] = most[w].max(work);
            }
        }
    }

    /// A stretch is as long as the least gap, so what a link leads to lies in the stretches before.
    fn by_stretches(&mut self, modes: &[Mode], links: &Links, most: &mut [u32]) {
        let cells = &mut self.cells[..modes.len() * WINDOWS];
        let stretch = links.iter().flatten().map(|link| link.0).min().unwrap_or(WINDOWS);
        let mut room = [0; WINDOWS];
        let mut from = 1;
        while from < WINDOWS {
            let end = (from + stretch).min(WINDOWS);
            for (m, mode) in modes.iter().enumerate() {
                let next = &mut room[..end - from];
                next.fill(0);
                for &(gap, to) in links[m].iter().take_while(|link| link.0 + 1 < end) {
                    let first = from.max(gap + 1);
                    let there = &cells[to + first - gap..to + end - gap];
                    next[first - from..].iter_mut().zip(there).for_each(|(next, work)| *next = (*next).max(*work));
                }
                let row = &mut cells[m * WINDOWS + from..m * WINDOWS + end];
                for ((cell, next), most) in row.iter_mut().zip(next).zip(&mut most[from..end]) {
                    *cell = mode.cost + *next;
                    *most = (*most).max(*cell);
                }
            }
            from = end;
        }
    }
}

// The text of a table

/// The number that a word of up to six digits spells, with no needless zero in front.
fn number_of(word: &[u8]) -> Option<u32> {
    if word.is_empty() || word.len() > 6 || (word[0] == b'0' && word.len() > 1) {
        return None;
    }
    digits(word)
}

fn digits(word: &[u8]) -> Option<u32> {
    let mut number: u32 = 0;
    for byte in word {
        if !byte.is_ascii_digit() {
            return None;
        }
        number = number.checked_mul(10)?.checked_add(u32::from(byte - b'0'))?;
    }
    Some(number)
}

/// The word of a line and the numbers that follow it.
fn line_of(line: &[u8]) -> Option<(&[u8], [u32; 4], usize)> {
    let mut words = line.split(|byte| *byte == b' ');
    let name = words.next()?;
    let mut numbers = [0; 4];
    let mut count = 0;
    for word in words {
        *numbers.get_mut(count)? = number_of(word)?;
        count += 1;
    }
    Some((name, numbers, count))
}

struct Draft {
    number: u32,
    modes: Vec<Mode>,
    gaps: [[u32; MODES]; MODES],
}

impl Draft {
    fn mode(&mut self, cost: u32, deadline: u32) -> bool {
        let right =
            in_range(cost, WINDOW) && in_range(deadline, WINDOW) && cost <= deadline && self.modes.len() < MODES;
        if right {
            self.modes.push(Mode { cost, deadline });
        }
        right
    }

    fn link(&mut self, from: u32, to: u32, gap: u32) -> bool {
        let (from, to) = (from as usize, to as usize);
        let there = from < self.modes.len() && to < self.modes.len();
        let right = there && in_range(gap, GAP) && gap >= self.modes[from].deadline && self.gaps[from][to] == 0;
        if right {
            self.gaps[from][to] = gap;
        }
        right
    }

    /// Whether there is a mode, and each has a link out.
    fn is_whole(&self) -> bool {
        !self.modes.is_empty() && self.gaps[..self.modes.len()].iter().all(|row| row.iter().any(|gap| *gap > 0))
    }
}

fn in_range(number: u32, last: u32) -> bool {
    (1..=last).contains(&number)
}

struct Loader<'a> {
    tasks: Vec<Task>,
    draft: Option<Draft>,
    sheet: &'a mut Sheet,
}

impl Loader<'_> {
    /// Closes the angular task above, if there is one.
    fn close(&mut self) -> bool {
        let Some(Draft { number, modes, gaps }) = self.draft.take_if(|draft| draft.is_whole()) else {
            return self.draft.is_none();
        };
        let most = self.sheet.most(&modes, &gaps);
        self.tasks.push(Task { number, modes, make: Make::Angular { gaps, most } });
        true
    }

    fn may_enter(&self, number: u32) -> bool {
        in_range(number, NUMBERS) && self.tasks.len() < PLACES && self.tasks.iter().all(|task| task.number != number)
    }

    fn sporadic(&mut self, number: u32, cost: u32, period: u32, deadline: u32) -> bool {
        let ranges = in_range(cost, WINDOW) && in_range(period, GAP) && in_range(deadline, WINDOW);
        let right = self.close() && self.may_enter(number) && ranges && cost <= deadline && deadline <= period;
        if right {
            self.tasks.push(Task { number, modes: vec![Mode { cost, deadline }], make: Make::Sporadic { period } });
        }
        right
    }

    fn angular(&mut self, number: u32) -> bool {
        let crank = |task: &&Task| matches!(task.make, Make::Angular { .. });
        let right = self.close() && self.may_enter(number) && self.tasks.iter().filter(crank).count() < ANGULARS;
        if right {
            self.draft = Some(Draft { number, modes: Vec::with_capacity(MODES), gaps: [[0; MODES]; MODES] });
        }
        right
    }
}

/// The tasks that a text spells.
fn load(text: &[u8], sheet: &mut Sheet) -> Done<Vec<Task>> {
    let mut loader = Loader { tasks: Vec::with_capacity(PLACES), draft: None, sheet };
    let (mut at, mut last) = (0, 0);
    for line in text.split_inclusive(|byte| *byte == b'\n') {
        let place = at;
        at += line.len();
        let wrong = || format!("byte {place} of a text: no line of a right table");
        let (name, numbers, count) = line.strip_suffix(b"\n").and_then(line_of).ok_or_else(wrong)?;
        let right = match (name, &numbers[..count], &mut loader.draft) {
            (b"link", &[from, to, gap], Some(draft)) => draft.link(from, to, gap),
            (b"mode", &[cost, deadline], Some(draft)) => draft.mode(cost, deadline),
            (b"sporadic", &[number, cost, period, deadline], _) => {
                last = place;
                loader.sporadic(number, cost, period, deadline)
            }
            (b"angular", &[number], _) => {
                last = place;
                loader.angular(number)
            }
            (b"end", &[count, place], _) => {
                let right = loader.close() && count as usize == loader.tasks.len() && place as usize == last;
                if right && at == text.len() {
                    return Ok(loader.tasks);
                }
                false
            }
            _ => false,
        };
        if !right {
            return Err(wrong());
        }
    }
    Err("a text with no trailer".to_string())
}

// Many texts

/// The first line of the bytes, and what follows it.
fn cut_line(bytes: &[u8]) -> (&[u8], &[u8]) {
    match bytes.iter().position(|byte| *byte == b'\n') {
        Some(len) => (&bytes[..len], &bytes[len + 1..]),
        None => (bytes, b""),
    }
}

/// The first bytes, and what follows them and one byte more.
fn cut_text(bytes: &[u8], length: usize) -> Done<(&[u8], &[u8])> {
    if length >= bytes.len() {
        return Err("a text that is not whole".to_string());
    }
    Ok((&bytes[..length], &bytes[length + 1..]))
}

fn texts(input: &[u8], mut sheet: Sheet, out: &mut impl Write) -> Done<()> {
    let mut bounds = [[0; MODES]; PLACES];
    let mut rest = input;
    while !rest.is_empty() {
        let (line, after) = cut_line(rest);
        let length = digits(line).ok_or("no length of a text")?;
        let (text, after) = cut_text(after, length as usize)?;
        rest = after;
        let tasks = load(text, &mut sheet)?;
        let verdict = judge(&tasks, &mut bounds);
        for (task, row) in tasks.iter().zip(&bounds) {
            for (mode, bound) in row[..task.modes.len()].iter().enumerate() {
                writeln!(out, "{} {mode} {bound}", task.number).map_err(told)?;
            }
        }
        writeln!(out, "{verdict}").map_err(told)?;
    }
    Ok(())
}

fn told(error: io::Error) -> String {
    error.to_string()
}

// A run

#[derive(Clone, Copy)]
struct Job {
    mode: usize,
    release: u32,
    due: u32,
    left: u32,
}

struct Run {
    clock: u32,
    jobs: [Option<Job>; PLACES],
    /// A bit for each place whose job has work left.
    busy: u32,
    worst: Bounds,
    late: Option<(usize, usize)>,
}

impl Run {
    fn new() -> Run {
        Run { clock: 0, jobs: [None; PLACES], busy: 0, worst: [[0; MODES]; PLACES], late: None }
    }

    fn release(&mut self, task: &Task, place: usize, mode: usize, cost: u32) -> Result<(), u32> {
        let numbers = *task.modes.get(mode).ok_or(17_u32)?;
        if cost > numbers.cost {
            return Err(22);
        }
        if let Some(job) = self.jobs[place] {
            if task.gap(job.mode, mode).is_none_or(|gap| job.release + gap > self.clock) {
                return Err(23);
            }
        }
        if self.late.is_some() {
            return Err(24);
        }
        let due = self.clock + numbers.deadline;
        self.jobs[place] = Some(Job { mode, release: self.clock, due, left: cost });
        self.busy |= 1 << place;
        Ok(())
    }

    /// The ticks done, and the late place and mode, if any.
    fn advance(&mut self, ticks: u32) -> Result<(u32, Option<(usize, usize)>), u32> {
        if ticks == 0 || ticks > ADVANCE {
            return Err(1);
        }
        if self.late.is_some() {
            return Err(24);
        }
        let (from, end) = (self.clock, self.clock + ticks);
        if end > CLOCK {
            return Err(25);
        }
        while self.clock < end && self.late.is_none() {
            if self.busy == 0 {
                self.clock = end;
            } else {
                self.serve(end);
            }
        }
        Ok((self.clock - from, self.late))
    }

    /// The places whose job has work left.
    fn busy_places(&self) -> impl Iterator<Item = usize> {
        let mut busy = self.busy;
        std::iter::from_fn(move || {
            let place = (busy != 0).then(|| busy.trailing_zeros() as usize)?;
            busy &= busy - 1;
            Some(place)
        })
    }

    /// Serves the highest place with work left until its job is done, one is due, or the end.
    fn serve(&mut self, end: u32) {
        let due = self.busy_places().filter_map(|place| self.jobs[place]).map(|job| job.due).min();
        let stop = due.map_or(end, |due| due.min(end));
        let place = self.busy.trailing_zeros() as usize;
        if let Some(job) = &mut self.jobs[place] {
            let ticks = job.left.min(stop - self.clock);
            self.clock += ticks;
            job.left -= ticks;
            if job.left == 0 {
                self.busy &= self.busy - 1;
                let worst = &mut self.worst[place][job.mode];
                *worst = (*worst).max(self.clock - job.release);
            }
        }
        if due == Some(self.clock) {
            let late = |place: usize| self.jobs[place].filter(|job| job.due == self.clock).map(|job| (place, job.mode));
            self.late = self.busy_places().find_map(late);
        }
    }
}

// Lists of calls

struct Console {
    tasks: Vec<Task>,
    verdict: Option<Verdict>,
    bounds: Bounds,
    run: Option<Run>,
    sheet: Sheet,
}

enum Answer {
    Done,
    Number(u32),
    Verdict(Option<Verdict>),
    Late { ticks: u32, task: u32, mode: usize },
    NoRun,
    Refused(u32),
    LoadRefused(u32),
}

impl fmt::Display for Answer {
    fn fmt(&self, f: &mut fmt::Formatter<'_>) -> fmt::Result {
        match self {
            Answer::Done => write!(f, "ok"),
            Answer::Number(number) => write!(f, "{number}"),
            Answer::Verdict(None) => write!(f, "none"),
            Answer::Verdict(Some(verdict)) => write!(f, "{verdict}"),
            Answer::Late { ticks, task, mode } => write!(f, "{ticks} late {task} {mode}"),
            Answer::NoRun => write!(f, "no run"),
            Answer::Refused(number) => write!(f, "refused {number}"),
            Answer::LoadRefused(number) => write!(f, "refused {number} 0 0 table"),
        }
    }
}

impl Console {
    fn new(sheet: Sheet) -> Console {
        Console { tasks: Vec::new(), verdict: None, bounds: [[0; MODES]; PLACES], run: None, sheet }
    }

    fn place_of(&self, number: u32) -> Result<usize, u32> {
        self.tasks.iter().position(|task| task.number == number).ok_or(17)
    }

    /// Where a task stands that has a mode of that number.
    fn place_with(&self, number: u32, mode: u32) -> Result<usize, u32> {
        if !in_range(number, NUMBERS) || mode as usize >= MODES {
            return Err(1);
        }
        self.place_of(number).and_then(|place| {
            if (mode as usize) < self.tasks[place].modes.len() {
                Ok(place)
            } else {
                Err(17)
            }
        })
    }

    fn bench(&mut self) -> Answer {
        self.tasks.clear();
        self.verdict = None;
        self.bounds = [[0; MODES]; PLACES];
        self.run = None;
        Answer::Done
    }

    fn load(&mut self, text: &[u8]) -> Done<Answer> {
        if text.len() > TEXT {
            return Ok(Answer::LoadRefused(1));
        }
        if self.run.is_some() {
            return Ok(Answer::LoadRefused(11));
        }
        if !self.tasks.is_empty() {
            return Ok(Answer::LoadRefused(14));
        }
        self.tasks = load(text, &mut self.sheet)?;
        self.verdict = None;
        self.bounds = [[0; MODES]; PLACES];
        Ok(Answer::Done)
    }

    fn begin(&mut self) -> Answer {
        if self.run.is_some() {
            return Answer::Refused(11);
        }
        self.run = Some(Run::new());
        Answer::Done
    }

    fn release(&mut self, number: u32, mode: u32, cost: u32) -> Result<Answer, u32> {
        if self.run.is_none() {
            return Ok(Answer::NoRun);
        }
        if !in_range(number, NUMBERS) || mode as usize >= MODES || !in_range(cost, WINDOW) {
            return Err(1);
        }
        let place = self.place_of(number)?;
        if let Some(run) = &mut self.run {
            run.release(&self.tasks[place], place, mode as usize, cost)?;
        }
        Ok(Answer::Done)
    }

    fn advance(&mut self, ticks: u32) -> Result<Answer, u32> {
        let Some(run) = &mut self.run else {
            return Ok(Answer::NoRun);
        };
        let (ticks, late) = run.advance(ticks)?;
        Ok(late.map_or(Answer::Number(ticks), |(place, mode)| Answer::Late {
            ticks,
            task: self.tasks[place].number,
            mode,
        }))
    }

    fn worst(&self, number: u32, mode: u32) -> Result<Answer, u32> {
        let Some(run) = &self.run else {
            return Ok(Answer::NoRun);
        };
        let place = self.place_with(number, mode)?;
        Ok(Answer::Number(run.worst[place][mode as usize]))
    }

    fn play(&mut self, name: &[u8], numbers: &[u32]) -> Done<Answer> {
        let answer = match (name, numbers) {
            (b"release", &[number, mode, cost]) => self.release(number, mode, cost),
            (b"advance", &[ticks]) => self.advance(ticks),
            (b"worst", &[number, mode]) => self.worst(number, mode),
            (b"bound", &[number, mode]) => {
                self.place_with(number, mode).map(|place| Answer::Number(self.bounds[place][mode as usize]))
            }
            (b"judge", []) => {
                self.verdict = Some(judge(&self.tasks, &mut self.bounds));
                Ok(Answer::Verdict(self.verdict))
            }
            (b"verdict", []) => Ok(Answer::Verdict(self.verdict)),
            (b"bench", &[_]) => Ok(self.bench()),
            (b"begin", []) => Ok(self.begin()),
            (b"stop", []) => Ok(self.run.take().map_or(Answer::NoRun, |run| Answer::Number(run.clock))),
            _ => return Err(format!("{}: no call that is played here", String::from_utf8_lossy(name))),
        };
        Ok(answer.unwrap_or_else(Answer::Refused))
    }
}

/// The name of a call and its numbers, each of up to ten digits.
fn call_of(line: &[u8]) -> Option<(&[u8], [u32; 5], usize)> {
    let mut words = line.split(|byte| *byte == b' ');
    let name = words.next()?;
    let mut numbers = [0; 5];
    let mut count = 0;
    for word in words {
        if word.is_empty() || word.len() > 10 {
            return None;
        }
        *numbers.get_mut(count)? = digits(word)?;
        count += 1;
    }
    Some((name, numbers, count))
}

fn console(input: &[u8], sheet: Sheet, out: &mut impl Write) -> Done<()> {
    let mut console = Console::new(sheet);
    let mut rest = input;
    while !rest.is_empty() {
        let (line, after) = cut_line(rest);
        rest = after;
        if line.is_empty() || line.starts_with(b"#") {
            continue;
        }
        let (name, numbers, count) = call_of(line).ok_or("a line that is no call")?;
        let answer = match (name, &numbers[..count]) {
            (b"load", &[length]) => {
                let (text, after) = cut_text(rest, length as usize)?;
                rest = after;
                console.load(text)?
            }
            (name, numbers) => console.play(name, numbers)?,
        };
        writeln!(out, "{answer}").map_err(told)?;
    }
    Ok(())
}

fn run(words: &[&str]) -> Done<()> {
    let (job, way) = match words {
        [job] => (*job, Way::Windows),
        [job, "stretches"] => (*job, Way::Stretches),
        _ => return Err("wanted: texts or console, and stretches or nothing".to_string()),
    };
    let mut input = Vec::new();
    io::stdin().lock().read_to_end(&mut input).map_err(told)?;
    let mut out = BufWriter::new(io::stdout().lock());
    match job {
        "texts" => texts(&input, Sheet::new(way), &mut out)?,
        "console" => console(&input, Sheet::new(way), &mut out)?,
        _ => return Err("wanted: texts or console".to_string()),
    }
    out.flush().map_err(told)
}

fn main() -> ExitCode {
    let words: Vec<String> = std::env::args().skip(1).collect();
    let words: Vec<&str> = words.iter().map(String::as_str).collect();
    match run(&words) {
        Ok(()) => ExitCode::SUCCESS,
        Err(error) => {
            eprintln!("baseline: {error}");
            ExitCode::FAILURE
        }
    }
}
