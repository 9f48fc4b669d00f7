//! Times the proved library and the reference model on the same inputs, in one
//! process.
//!
//! The arguments `checks`, `replays`, `joins` and `searches` choose groups of
//! inputs; any other word chooses the inputs whose names hold it. Without
//! arguments all are run.

use std::hint::black_box;
use std::process::{Command, ExitCode, Stdio};
use std::time::{Duration, Instant};
use std::{env, io, thread};

use differential::inputs::{self, Check, Join, Replay, Search};
use reference::{Budget, Stopped};

const ROUNDS: usize = 30;
/// No round begins later than this.
const ROUNDS_END: Duration = Duration::from_secs(10);
/// Short, so that on a busy machine some batches run undisturbed.
const BATCH: Duration = Duration::from_millis(1);
/// How long a search is waited for.
const SEARCH_DEADLINE: Duration = Duration::from_secs(10);

/// A time a call, or the deadline at which the call was stopped.
#[derive(Clone, Copy)]
enum Time {
    Took(f64),
    MoreThan(f64),
}

impl Time {
    fn seconds(self) -> f64 {
        match self {
            Time::Took(seconds) | Time::MoreThan(seconds) => seconds,
        }
    }

    fn show(self) -> String {
        let seconds = self.seconds();
        let text = match seconds {
            s if s < 1e-6 => format!("{:.0} ns", s * 1e9),
            s if s < 1e-3 => format!("{:.2} µs", s * 1e6),
            s if s < 1.0 => format!("{:.2} ms", s * 1e3),
            s => format!("{s:.2} s"),
        };
        match self {
            Time::Took(_) => text,
            Time::MoreThan(_) => format!("more than {text}"),
        }
    }
}

/// A line of the table. `slower / faster` is the ratio that it gives.
fn print_line(name: &str, proved: Time, reference: Time, (slower, faster): (Time, Time)) {
    let ratio = slower.seconds() / faster.seconds();
    let ratio = match (slower, faster) {
        (Time::Took(_), Time::Took(_)) => format!("{ratio:.2}"),
        (Time::MoreThan(_), Time::Took(_)) => format!("more than {ratio:.0}"),
        (Time::Took(_), Time::MoreThan(_)) => format!("less than {ratio:.2}"),
        (Time::MoreThan(_), Time::MoreThan(_)) => "unknown".to_string(),
    };
    print_cells(name, &proved.show(), &reference.show(), &ratio);
}

fn print_cells(name: &str, proved: &str, reference: &str, ratio: &str) {
    println!("{name:<62} {proved:>18} {reference:>18} {ratio:>18}");
}

/// How many calls fill a batch.
fn calls_a_batch(call: &mut dyn FnMut()) -> u32 {
    call();
    let start = Instant::now();
    call();
    let once = start.elapsed().max(Duration::from_nanos(20));
    (BATCH.as_secs_f64() / once.as_secs_f64()).clamp(1.0, 1e6) as u32
}

fn batch(call: &mut dyn FnMut(), calls: u32) -> f64 {
    let start = Instant::now();
    for _ in 0..calls {
        call();
    }
    start.elapsed().as_secs_f64() / f64::from(calls)
}

/// The smallest time a call of each, over interleaved rounds.
fn measure<const N: usize>(mut calls: [&mut dyn FnMut(); N]) -> [Time; N] {
    let counts = calls.each_mut().map(|call| calls_a_batch(call));
    let mut smallest = [f64::INFINITY; N];
    let start = Instant::now();
    for round in 0..ROUNDS {
        if round > 0 && start.elapsed() > ROUNDS_END {
            break;
        }
        for (n, call) in calls.iter_mut().enumerate() {
            smallest[n] = smallest[n].min(batch(call, counts[n]));
        }
    }
    smallest.map(Time::Took)
}

fn bench_check(input: &Check) {
    let Check { name, shop, order } = input;
    assert_eq!(liropuva::check_order(shop, order), Ok(()));
    assert_eq!(reference::check_order(shop, order), Ok(()));
    let mut proved = || {
        let answer = liropuva::check_order(black_box(shop), black_box(order));
        black_box(answer).expect("passed");
    };
    let mut reference = || {
        let answer = reference::check_order(black_box(shop), black_box(order));
        black_box(answer).expect("passed");
    };
    let [proved, reference] = measure([&mut proved, &mut reference]);
    print_line(name, proved, reference, (proved, reference));
}

fn bench_replay(input: &Replay) {
    let Replay {
        name,
        shop,
        order,
        trace,
    } = input;
    let mut room = vec![0; trace.len()];
    let mut other_room = room.clone();
    let proved = liropuva::replay(shop, order, trace, &mut room).expect(name);
    let reference = reference::replay(shop, order, trace, &mut other_room).expect(name);
    assert_eq!((proved.cost, &room), (reference.cost, &other_room));
    let mut proved = || {
        let room = black_box(&mut room[..]);
        let answer = liropuva::replay(black_box(shop), black_box(order), black_box(trace), room);
        let _ = black_box(answer);
    };
    let mut reference = || {
        let room = black_box(&mut other_room[..]);
        let answer = reference::replay(black_box(shop), black_box(order), black_box(trace), room);
        let _ = black_box(answer);
    };
    let [proved, reference] = measure([&mut proved, &mut reference]);
    print_line(name, proved, reference, (proved, reference));
}

fn bench_join(input: &Join) {
    let Join {
        name,
        shop,
        first,
        second,
    } = input;
    let mut room = vec![0; liropuva::JOIN_ROOM];
    let mut other_room = room.clone();
    liropuva::join(shop, first, second, &mut room).expect(name);
    reference::join(shop, first, second, &mut other_room).expect(name);
    assert_eq!(room, other_room);
    let mut proved = || {
        let room = black_box(&mut room[..]);
        let answer = liropuva::join(black_box(shop), black_box(first), black_box(second), room);
        let _ = black_box(answer);
    };
    let mut reference = || {
        let room = black_box(&mut other_room[..]);
        let answer = reference::join(black_box(shop), black_box(first), black_box(second), room);
        let _ = black_box(answer);
    };
    let [proved, reference] = measure([&mut proved, &mut reference]);
    print_line(name, proved, reference, (proved, reference));
}

/// A search that ended: its seconds, and number, place and room of its answer.
struct Ended {
    seconds: f64,
    answer: (u32, usize, Vec<u16>),
}

/// The reference search once; `None` when it is stopped at the deadline.
fn reference_search_once(input: &Search, depth: u32) -> Option<Ended> {
    let mut room = vec![0; liropuva::SEARCH_ROOM];
    let start = Instant::now();
    let budget = Budget::until(start + SEARCH_DEADLINE);
    let found = reference::search_within(&input.shop, &input.order, depth, &mut room, budget);
    let seconds = start.elapsed().as_secs_f64();
    let (number, place) = match found {
        Ok(steps) => (0, steps),
        Err(Stopped::Refused(refusal)) => (u32::from(refusal.number), refusal.place),
        Err(Stopped::BudgetSpent) => return None,
    };
    Some(Ended {
        seconds,
        answer: (number, place, room),
    })
}

/// The argument by which this program runs one proved search for another run of
/// itself.
const ONCE: &str = "--proved-search-once";

/// The proved search once; `None` when it is stopped at the deadline. The library
/// cannot be told to stop, so the search runs in a process of its own.
fn proved_search_once(input: &Search, depth: u32) -> Option<Ended> {
    let start = Instant::now();
    let mut child = Command::new(env::current_exe().expect("the path of this program"))
        .args([ONCE, &input.name, &depth.to_string()])
        .stdout(Stdio::piped())
        .spawn()
        .expect("a process for the search");
    while child.try_wait().expect("the state of the search").is_none() {
        if start.elapsed() > SEARCH_DEADLINE {
            child.kill().expect("an end of the search");
            child.wait().expect("an end of the search");
            return None;
        }
        thread::sleep(Duration::from_micros(200));
    }
    let said = io::read_to_string(child.stdout.take().expect("it is piped"));
    let said = said.expect("what the search said");
    let mut words = said.split_whitespace();
    let seconds = words.next().and_then(|word| word.parse().ok());
    let mut numbers = words.map(|word| word.parse::<u32>().expect("a number"));
    let mut next = || numbers.next().expect("number and place");
    let (number, place) = (next(), next() as usize);
    let room = numbers.map(|word| word as u16).collect();
    Some(Ended {
        seconds: seconds.expect("a time"),
        answer: (number, place, room),
    })
}

/// What the process of [`proved_search_once`] does.
fn search_once(name: &str, depth: &str) {
    let inputs = inputs::searches();
    let input = inputs.iter().find(|input| input.name == name);
    let Search { shop, order, .. } = input.expect("the name of a search");
    let depth = depth.parse().expect("a depth");
    let mut room = [0; liropuva::SEARCH_ROOM];
    let start = Instant::now();
    let answer = liropuva::search_answer(shop, order, depth, &mut room);
    let seconds = start.elapsed().as_secs_f64();
    println!("{seconds} {} {}", answer.number, answer.place);
    println!("{}", room.map(|word| word.to_string()).join(" "));
}

/// The largest depth at which a search ends before the deadline, where it does
/// not at the input's own. A larger depth never takes less time.
fn largest_depth(input: &Search, once: fn(&Search, u32) -> Option<Ended>) -> String {
    let ends = |&depth: &u32| once(input, depth).is_some();
    match (0..input.depth).take_while(ends).last() {
        Some(depth) => format!("ends at D {depth}"),
        None => "ends at no D".to_string(),
    }
}

fn bench_search(input: &Search) {
    let Search {
        name,
        shop,
        order,
        depth,
    } = input;
    assert_eq!(liropuva::check_order(shop, order), Ok(()));
    let proved_ended = proved_search_once(input, *depth);
    let reference_ended = reference_search_once(input, *depth);
    if let (Some(proved), Some(reference)) = (&proved_ended, &reference_ended) {
        assert_eq!(proved.answer, reference.answer);
    }
    let time = |ended: &Option<Ended>| match ended {
        Some(ended) => Time::Took(ended.seconds),
        None => Time::MoreThan(SEARCH_DEADLINE.as_secs_f64()),
    };
    let (mut proved, mut reference) = (time(&proved_ended), time(&reference_ended));
    let mut room = [0; liropuva::SEARCH_ROOM];
    let mut other_room = room;
    let mut proved_call = || {
        let room = black_box(&mut room[..]);
        let found = liropuva::search(black_box(shop), black_box(order), *depth, room);
        let _ = black_box(found);
    };
    let mut reference_call = || {
        let room = black_box(&mut other_room[..]);
        let found = reference::search(black_box(shop), black_box(order), *depth, room);
        let _ = black_box(found);
    };
    // Those that take seconds are not repeated.
    let quick = |time: Time| time.seconds() < 2.0;
    match (quick(proved), quick(reference)) {
        (true, true) => [proved, reference] = measure([&mut proved_call, &mut reference_call]),
        (true, false) => [proved] = measure([&mut proved_call]),
        (false, true) => [reference] = measure([&mut reference_call]),
        (false, false) => {}
    }
    print_line(name, proved, reference, (reference, proved));
    if proved_ended.is_none() || reference_ended.is_none() {
        let depth = |ended: &Option<Ended>, once| match ended {
            Some(_) => String::new(),
            None => largest_depth(input, once),
        };
        let proved = depth(&proved_ended, proved_search_once);
        let reference = depth(&reference_ended, reference_search_once);
        print_cells("", &proved, &reference, "");
    }
}

/// The inputs that the command line asks for.
struct Choice {
    groups: Vec<String>,
    words: Vec<String>,
}

const GROUPS: [&str; 4] = ["checks", "replays", "joins", "searches"];

impl Choice {
    fn read(arguments: Vec<String>) -> Choice {
        let is_group = |argument: &String| GROUPS.contains(&argument.as_str());
        let (groups, words) = arguments.into_iter().partition(is_group);
        Choice { groups, words }
    }

    /// Those of a group's inputs that were asked for.
    fn of<T>(&self, group: &str, inputs: Vec<T>, name: fn(&T) -> &String) -> Vec<T> {
        let named = |input: &T| {
            let mut words = self.words.iter();
            self.words.is_empty() || words.any(|word| name(input).contains(word))
        };
        let asked = self.groups.is_empty() || self.groups.iter().any(|asked| asked == group);
        inputs
            .into_iter()
            .filter(|input| asked && named(input))
            .collect()
    }
}

fn main() -> ExitCode {
    let arguments: Vec<String> = env::args().skip(1).collect();
    if let [once, name, depth] = &arguments[..]
        && once == ONCE
    {
        search_once(name, depth);
        return ExitCode::SUCCESS;
    }
    let choice = Choice::read(arguments);
    let checks = choice.of("checks", inputs::checks(), |input| &input.name);
    let replays = choice.of("replays", inputs::replays(), |input| &input.name);
    let joins = choice.of("joins", inputs::joins(), |input| &input.name);
    let searches = choice.of("searches", inputs::searches(), |input| &input.name);
    let inputs = checks.len() + replays.len() + joins.len() + searches.len();
    if inputs == 0 {
        eprintln!(
            "no input has such a name; the groups are {}",
            GROUPS.join(", ")
        );
        return ExitCode::FAILURE;
    }
    print_cells("input", "proved", "reference", "ratio");
    if inputs > searches.len() {
        println!("checks, replays and joins: proved / reference");
    }
    checks.iter().for_each(bench_check);
    replays.iter().for_each(bench_replay);
    joins.iter().for_each(bench_join);
    if !searches.is_empty() {
        println!("searches: reference / proved");
    }
    searches.iter().for_each(bench_search);
    ExitCode::SUCCESS
}
