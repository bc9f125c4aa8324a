//! Long random scripts: runs with a G before each, and among their lines damaged
//! ones, refused G's and numbers with leading zeros.

use crate::random::{script_run, Mix, Rng, Run};
use crate::script::{begin_line, command, line_of};
use crate::types::Setup;

/// What a run begins with: mostly few sets, ways and lines, now and then any, or
/// all of the largest.
pub fn setup(rng: &mut Rng) -> Setup {
    if rng.one_in(12) {
        return Setup::new(64, 4, 65536);
    }
    let any = rng.one_in(5);
    let sets = if any { 1 << rng.below(7) } else { rng.pick(&[1, 1, 2]) };
    let ways = if any { 1 + rng.below(4) as u32 } else { rng.pick(&[1, 1, 2, 2, 3]) };
    let lines = 1 + sets * ways / 2 + rng.below(u64::from(sets * ways) + 3) as u32;
    Setup::new(sets, ways, 16 * lines)
}

/// The lines of a run, its G first.
pub fn lines_of(run: &Run) -> impl Iterator<Item = String> + '_ {
    std::iter::once(begin_line(run.setup())).chain(run.calls.iter().copied().filter_map(line_of))
}

/// A G that is refused by one of its figures.
fn refused_start(rng: &mut Rng) -> Vec<u8> {
    let mut numbers = [1, 1, 32];
    let (place, bad) = rng.pick(&[
        (0, 0),
        (0, 3),
        (0, 128),
        (0, 1 << 31),
        (1, 0),
        (1, 5),
        (1, u32::MAX),
        (2, 0),
        (2, 40),
        (2, 65552),
        (2, u32::MAX - 15),
    ]);
    numbers[place] = bad;
    begin_line(Setup::new(numbers[0], numbers[1], numbers[2])).into_bytes()
}

/// A byte of a damaged line: no LF.
fn any_byte(rng: &mut Rng) -> u8 {
    let near = rng.pick(b"GSLACXIRF 0123456789  \t\r\0+-./:x\x80\xff");
    match rng.word() as u8 {
        byte if rng.one_in(3) && byte != b'\n' => byte,
        _ => near,
    }
}

/// A line with one damage, which may be none.
fn damage(rng: &mut Rng, line: &[u8]) -> Vec<u8> {
    let mut line = line.to_vec();
    let at = rng.below(line.len() as u64 + 1) as usize;
    match rng.below(9) {
        0 => line.clear(),
        1 | 2 => line.insert(at, any_byte(rng)),
        3 if at < line.len() => line[at] = any_byte(rng),
        4 if at < line.len() => drop(line.remove(at)),
        5 => line.extend(b" 4294967296"),
        6 => line.resize(65 + rng.below(130) as usize, b'0'),
        7 if rng.one_in(40) => line.resize(65 + rng.below(140_000) as usize, b' '),
        _ => line = (0..1 + rng.below(70)).map(|_| any_byte(rng)).collect(),
    }
    line
}

/// A line that is malformed.
fn damaged(rng: &mut Rng, line: &[u8]) -> Vec<u8> {
    let mut bad = damage(rng, line);
    while command(&bad).is_some() {
        bad = damage(rng, line);
    }
    bad
}

/// A well-written line with zeros before its last number, up to 64 bytes in all.
fn padded(rng: &mut Rng, line: &str) -> Vec<u8> {
    let Some((head, last)) = line.rsplit_once(' ') else {
        return line.into();
    };
    let room = 64 - line.len();
    let zeros = if rng.one_in(2) { room } else { rng.below(room as u64 + 1) as usize };
    format!("{head} {}{last}", "0".repeat(zeros)).into_bytes()
}

/// A line to stand before a line of a run, or none.
fn other(rng: &mut Rng, line: &str) -> Option<Vec<u8>> {
    match rng.below(400) {
        0..=11 => Some(damaged(rng, line.as_bytes())),
        12..=14 => Some(refused_start(rng)),
        _ => None,
    }
}

/// Adds a run to a script, with other lines among its own.
fn add_run(script: &mut Vec<u8>, rng: &mut Rng, run: &Run) {
    for line in lines_of(run) {
        let other = other(rng, &line);
        let line = if rng.one_in(60) { padded(rng, &line) } else { line.into_bytes() };
        for line in other.into_iter().chain([line]) {
            script.extend(line);
            script.push(b'\n');
        }
    }
}

/// A run as a script, without other lines among its own.
pub fn plain_script(run: &Run) -> Vec<u8> {
    lines_of(run).flat_map(|line| (line + "\n").into_bytes()).collect()
}

/// Makes the script of a seed, of about so many lines. Each third one has no LF
/// at its end.
pub fn script(seed: u64, lines: usize) -> Vec<u8> {
    let mut rng = Rng::new(seed);
    let mut script = b"I\nL 0 1\n".to_vec();
    let mut left = lines;
    while left > 0 {
        let length = (1 + rng.below(12_000) as usize).min(left);
        let setup = setup(&mut rng);
        let run = script_run(&mut rng, setup, length, Mix::Long);
        add_run(&mut script, &mut rng, &run);
        left -= length;
    }
    if seed.is_multiple_of(3) {
        script.pop();
    }
    script
}
