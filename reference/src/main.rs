//! The program: reads its subcommand, and prints what the library answers.

use reference::linear::{self, Shape, MOST_BYTES, MOST_PLACES};
use reference::program::{self, Done};
use reference::streams::{self, ClientStream, NodeStream};
use reference::text::MOST_STORED;
use reference::values::{read_number, Dials};
use reference::{batch, budget, calm, orders, plain, random, recover, settled};
use std::io::{Read, Write};

/// Reads up to so many bytes of standard input.
fn stdin(most: u64) -> Vec<u8> {
    let mut input = Vec::new();
    if std::io::stdin().take(most).read_to_end(&mut input).is_err() {
        println!("{}", program::READ_FAULT);
        std::process::exit(4);
    }
    input
}

/// Answers a subcommand that reads standard input, up to so many bytes.
fn read_and_answer(word: &str, most: u64, dials: &Dials) -> Done {
    batch::answer(word, &stdin(most), dials).unwrap_or_else(Done::usage)
}

/// Answers the texts on standard input, one after another.
fn serve(dials: &Dials) -> Done {
    let served = batch::serve(std::io::stdin().lock(), std::io::stdout().lock(), dials);
    Done { status: if served.is_ok() { 0 } else { 5 }, output: Vec::new() }
}

/// Runs an actor of this number over standard input.
fn streamed<A: streams::Answers>(number: &str, most: u64) -> Done {
    match read_number(number.as_bytes(), most) {
        Some(n) if n >= 1 => {
            let status = streams::run::<A>(n as u16, std::io::stdin(), std::io::stdout());
            Done { status, output: Vec::new() }
        }
        _ => Done::usage(),
    }
}

/// Reads four numbers, each at least 1.
fn dials(words: &[&str; 4]) -> Option<Dials> {
    let number = |w: &str| read_number(w.as_bytes(), 1 << 20).filter(|n| *n >= 1);
    let [unit, patience, crowd, heap] = words;
    Some(Dials {
        unit: number(unit)? as u32,
        patience: number(patience)? as u32,
        crowd: number(crowd)? as usize,
        heap: number(heap)? as usize,
    })
}

/// Reads the numbers of a search: its seed and how many scenarios it has.
fn search(seed: &str, count: &str) -> Option<(u64, u64)> {
    let number = |w: &str| read_number(w.as_bytes(), u64::MAX);
    Some((number(seed)?, number(count)?))
}

/// Answers a subcommand that has a seed and a count.
fn searched(word: &str, (seed, count): (u64, u64), dials: &Dials) -> Done {
    match word {
        "fuzz" => Done::check(random::fuzz(seed, count)),
        "plain" => Done::check(plain::plain(seed, count, dials)),
        "calm" => Done::check(calm::calm(seed, count, dials)),
        "recover" => Done::check(recover::recover(seed, count, dials)),
        "settled" => Done::check(settled::settled(seed, count, dials)),
        "budget" => Done::check(budget::budget(seed, count, dials)),
        "orders" => Done::check(orders::orders(seed, count)),
        "histories" => Done::check(linear::histories(seed, count)),
        _ => Done::usage(),
    }
}

/// Answers whether the history on standard input is linearizable, by these words behind the subcommand.
fn linear(words: &[&str]) -> Done {
    let (shows_order, most) = match words {
        ["order", most @ ..] => (true, most),
        most => (false, most),
    };
    let most = match most {
        [] => Some(MOST_PLACES as u64),
        [most] => read_number(most.as_bytes(), u64::from(u32::MAX)).filter(|n| *n >= 1),
        _ => None,
    };
    match most {
        Some(most) => linear::linear(&stdin(MOST_BYTES as u64 + 1), shows_order, most as usize),
        None => Done::usage(),
    }
}

/// Reads the numbers of a random history: its seed, and what is drawn.
fn history(words: &[&str; 8]) -> Option<(u64, Shape)> {
    let number = |w: &str| read_number(w.as_bytes(), u64::MAX);
    let [seed, requests, processes, keys, lost, fail, wrong, untold] = words;
    let shape = Shape {
        requests: number(requests)?,
        processes: number(processes).filter(|n| *n >= 1)?,
        keys: number(keys).filter(|n| *n >= 1)?,
        lost: number(lost)?,
        fail: number(fail)?,
        wrong: number(wrong)?,
        untold: number(untold)?,
    };
    Some((number(seed)?, shape))
}

fn answer(words: &[&str], dials: &Dials) -> Done {
    match words {
        ["make", n, s] => program::make(n, s, dials),
        [word @ ("run" | "journal" | "sound")] => read_and_answer(word, program::SCENARIO_BYTES, dials),
        [word @ ("audit" | "explain")] => read_and_answer(word, MOST_STORED as u64 + 1, dials),
        ["node", n] => streamed::<NodeStream>(n, 32),
        ["client", c] => streamed::<ClientStream>(c, 64),
        ["batch"] => serve(dials),
        ["linear", more @ ..] => linear(more),
        ["history", a, b, c, d, e, f, g, h] => match history(&[a, b, c, d, e, f, g, h]) {
            Some((seed, shape)) => Done { status: 0, output: linear::made_history(seed, shape).into_bytes() },
            None => Done::usage(),
        },
        ["gen", seed] => match read_number(seed.as_bytes(), u64::MAX) {
            Some(seed) => Done { status: 0, output: random::generate(seed, dials).into_bytes() },
            None => Done::usage(),
        },
        [word, seed, count] => match search(seed, count) {
            Some(numbers) => searched(word, numbers, dials),
            None => Done::usage(),
        },
        _ => Done::usage(),
    }
}

fn main() {
    let words: Vec<String> = std::env::args().skip(1).collect();
    let words: Vec<&str> = words.iter().map(|w| w.as_str()).collect();
    let done = match &words[..] {
        ["--dials", a, b, c, d, rest @ ..] => match dials(&[a, b, c, d]) {
            Some(dials) => answer(rest, &dials),
            None => Done::usage(),
        },
        rest => answer(rest, &Dials::RULES),
    };
    let mut out = std::io::stdout();
    let _ = out.write_all(&done.output);
    let _ = out.flush();
    std::process::exit(i32::from(done.status));
}
