//! Runs the lister on given inputs and compares what it prints with the rectangle-list program's own listing; then on
//! inputs and outputs that fail. `lister_runs [LISTER]`: the program's path as an argument, or in the variable USHANDERI_LISTER.
#![forbid(unsafe_code)]

use std::env;
use std::io::{ErrorKind, Write};
use std::process::{Command, ExitCode, Stdio};
use std::thread;
use ushanderi_host::answers::{self, RefusedLoad};
use ushanderi_host::layouts::{clock_tree, A, B, C};
use ushanderi_host::pictures::{picture, workload, STYLES};
use ushanderi_host::random::Random;
use ushanderi_host::rects::{tiles, Rect, Solid};
use ushanderi_host::tally::agree;
use ushanderi_host::words::EDGE;

const VARIABLE: &str = "USHANDERI_LISTER";
/// The lister's table takes so many solids, and it reads no more bytes than this.
const MOST_SOLIDS: usize = 400;
const MOST_BYTES: usize = 8_020;
const RANDOM_LAYOUTS: usize = 150;
/// In KiB: what the lister needs of stack at most, and is given here.
const STACK: usize = 512;

/// Inputs and outputs that fail, as a shell gives them, and how the line on standard error begins.
const FAILURES: [(&str, &str); 4] = [
    ("<&-", "lister: standard input: "),
    ("</", "lister: standard input: "),
    ("</dev/null >&-", "lister: standard output: "),
    ("</dev/null >/dev/full", "lister: standard output: "),
];

/// The rules print this one out.
const LISTING_OF_A: &str = "space 0 -16777216 10 16777216 16777216\nspace 0 -16777216 0 0 10\nsolid 1 0 0 10 10\n\
                            space 0 10 0 16777216 10\nspace 0 -16777216 -16777216 16777216 0\n";

type Input = (String, Vec<u8>);

fn main() -> ExitCode {
    let Some(lister) = env::args().nth(1).or_else(|| env::var(VARIABLE).ok()) else {
        eprintln!("usage: lister_runs LISTER, or set {VARIABLE}");
        return ExitCode::from(2);
    };
    match compare_all(&lister) {
        Ok(runs) => {
            println!("{runs} runs of the lister, all agree");
            ExitCode::SUCCESS
        }
        Err(message) => {
            println!("DISAGREEMENT: {message}");
            ExitCode::FAILURE
        }
    }
}

fn compare_all(lister: &str) -> Result<usize, String> {
    let printed = run(lister, &file(&[A]))?;
    agree(printed == LISTING_OF_A, || format!("A alone: printed {printed}"))?;
    let mut inputs = named_inputs();
    inputs.extend(random_inputs());
    for (name, bytes) in &inputs {
        let (printed, wanted) = (run(lister, bytes)?, listing(bytes));
        agree(printed == wanted, || format!("{name}: printed\n{printed}wanted\n{wanted}"))?;
    }
    for (redirection, told) in FAILURES {
        fails(lister, redirection, told)?;
    }
    Ok(inputs.len() + 1 + FAILURES.len())
}

/// The solids in this order, which need not be the saved order.
fn file(solids: &[Solid]) -> Vec<u8> {
    solids.iter().flat_map(|solid| answers::save(&[*solid])).collect()
}

fn solid(left: i32, bottom: i32, right: i32, top: i32, label: i32) -> Solid {
    Solid { rect: Rect::new(left, bottom, right, top), label }
}

fn named_inputs() -> Vec<Input> {
    let full = workload(MOST_SOLIDS, 9_000, &mut Random::new(11));
    let one_more = [&full[..], &[solid(-9, -9, -8, -8, 1)]].concat();
    let damaged = |place: usize, byte: u8| {
        let mut bytes = file(&[A, B, C]);
        bytes[place] = byte;
        bytes
    };
    let row: Vec<Solid> = (0..MOST_SOLIDS as i32).map(|place| solid(2 * place, 0, 2 * place + 1, 1, 1)).collect();
    let inputs: [(&str, Vec<u8>); 21] = [
        ("no bytes", vec![]),
        ("A and B", file(&[A, B])),
        ("A, B and C", file(&[A, B, C])),
        ("C, B and A", file(&[C, B, A])),
        ("the whole plane", file(&[Solid { rect: Rect::PLANE, label: i32::MAX }])),
        ("a clock tree", file(&clock_tree())),
        ("400 solids", file(&full)),
        ("400 solids in a row, the deepest listing", file(&row)),
        ("401 records", file(&one_more)),
        ("401 records and a byte", [file(&one_more), vec![7]].concat()),
        ("twice 400 solids", file(&[full.clone(), full.clone()].concat())),
        ("an empty rectangle", file(&[A, solid(3, 3, 3, 4, 1)])),
        ("a rectangle beyond the plane", file(&[solid(0, 0, EDGE + 1, 1, 1)])),
        ("a label of 0", file(&[A, B, solid(50, 0, 60, 10, 0)])),
        ("a rectangle and a label that are none", file(&[solid(5, 5, 4, 6, -1)])),
        ("an overlap", file(&[A, B, C, solid(9, 3, 12, 4, 4)])),
        ("19 bytes", file(&[A])[..19].to_vec()),
        ("21 bytes", [file(&[A]), vec![0]].concat()),
        ("a damaged edge", damaged(23, 0x80)),
        ("a damaged label", damaged(59, 0xff)),
        ("a damaged low byte", damaged(0, 9)),
    ];
    inputs.into_iter().map(|(name, bytes)| (name.to_string(), bytes)).collect()
}

fn random_inputs() -> Vec<Input> {
    let mut random = Random::new(12);
    let mut inputs = Vec::new();
    for number in 0..RANDOM_LAYOUTS {
        let style = random.pick(&STYLES);
        let most = random.pick(&[1, 5, 20, 80]);
        let mut bytes = file(&picture(style, most, &mut random));
        if random.one_in(3) && !bytes.is_empty() {
            let place = random.below(bytes.len());
            bytes[place] ^= 1 << random.below(8);
        }
        inputs.push((format!("layout {number}, {style:?}"), bytes));
    }
    inputs
}

/// What the lister has to print.
fn listing(bytes: &[u8]) -> String {
    match answers::load(&bytes[..bytes.len().min(MOST_BYTES)], MOST_SOLIDS) {
        Err(RefusedLoad { number, index }) => format!("refused {number} {index}\n"),
        Ok(solids) => {
            let listed = answers::enumerate(&tiles(&solids), &Rect::PLANE).expect("the plane is an area");
            listed.iter().map(|tile| format!("{tile}\n")).collect()
        }
    }
}

/// The lister, as a shell starts it.
fn command(lister: &str, redirection: &str) -> Command {
    let mut command = Command::new("sh");
    command.args(["-c", &format!("ulimit -s {STACK} && exec \"$0\" {redirection}"), lister]);
    command.stdin(Stdio::piped()).stdout(Stdio::piped()).stderr(Stdio::piped());
    command
}

fn run(lister: &str, bytes: &[u8]) -> Result<String, String> {
    let told = |error: std::io::Error| format!("{lister}: {error}");
    let mut child = command(lister, "").spawn().map_err(told)?;
    let mut input = child.stdin.take().expect("its input is piped");
    // Fed beside the reading, since neither pipe takes any amount; a lister that reads no further closes its own.
    let output = thread::scope(|scope| {
        let feeder = scope.spawn(move || input.write_all(bytes));
        let output = child.wait_with_output();
        match feeder.join().expect("the feeder ends") {
            Err(error) if error.kind() != ErrorKind::BrokenPipe => Err(error),
            _ => output,
        }
    })
    .map_err(told)?;
    let well = output.status.success() && output.stderr.is_empty();
    agree(well, || format!("{lister} on {} bytes: {output:?}", bytes.len()))?;
    String::from_utf8(output.stdout).map_err(|_| format!("{lister} printed no text"))
}

/// One line on standard error, and nothing on standard output.
fn fails(lister: &str, redirection: &str, told: &str) -> Result<(), String> {
    let output = command(lister, redirection).output().map_err(|error| format!("{lister}: {error}"))?;
    let error = String::from_utf8_lossy(&output.stderr);
    let well = output.stdout.is_empty() && error.starts_with(told) && error.lines().count() == 1;
    agree(well, || format!("{lister} {redirection}: {output:?}"))
}
