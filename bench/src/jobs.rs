//! Lines of a job board: containers of seven keys with values.

use nachricht::Builder;
use reference::generate::Random;

const WORDS: &str = "Kante entgraten Maß prüfen Fläche schlichten Bohrung tief Gewinde lehren bitte sauber ohne Grat \
    Halter Welle Flansch Lager Platte Deckel links rechts oben unten zweite Schicht Härte Prüfling";

const OPERATIONS: [&str; 6] = ["turn", "mill", "drill", "grind", "weld", "paint"];
const SERIES: [&str; 4] = ["AB", "BC", "XK", "QT"];
const QUANTITIES: [u32; 8] = [1, 2, 4, 10, 25, 100, 250, 1_200];

/// The longest note, in bytes.
const LONGEST_NOTE: usize = 80;

/// A board of so many lines.
pub fn board(lines: usize, random: &mut Random) -> Builder {
    let mut board = Builder::new();
    for _ in 0..lines {
        line(&mut board, random);
    }
    board
}

/// Adds a line.
pub fn line(board: &mut Builder, random: &mut Random) {
    let part = format!("{}-{:04}", random.pick(&SERIES), random.below(10_000));
    let note = random.below(LONGEST_NOTE + 1);
    board.container(7);
    board.key("d").integer(1 + random.below(31) as u64);
    board.key("m").integer(1 + random.below(12) as u64);
    board.key("part").string(part);
    board.key("qty").integer(random.pick(&QUANTITIES));
    board
        .key("weight")
        .integer(40 + random.below(90_000) as u64);
    board.key("op").symbol(random.pick(&OPERATIONS));
    board.key("note").string(text(note, random));
}

/// German words of so many bytes in all; where a character would be cut, full stops fill up.
pub fn text(bytes: usize, random: &mut Random) -> String {
    let words: Vec<&str> = WORDS.split(' ').collect();
    let mut text = String::new();
    while text.len() < bytes {
        text += random.pick(&words);
        text.push(' ');
    }
    while text.len() > bytes {
        text.pop();
    }
    let missing = bytes - text.len();
    text + &".".repeat(missing)
}
