//! Schedules in either form in frames of 512 bytes: 0 for the records or 1 for the text that is asked for, the length (2), the schedule, noughts.

use crate::rng::Rng;

pub const FRAME: usize = 512;
pub const HEAD: usize = 3;

const VERBS: [&str; 11] = [
    "lock", "order", "vote", "deliver", "bell", "arbiter", "stop", "save", "restore", "back", "ballot",
];
const NAMES: [&str; 14] = [
    "willing", "unwilling", "move", "stay", "vote", "acknowledgement", "help-call", "help-answer", "ask", "promise", "put", "taken", "own-arbiter", "lock",
];
const NUMBERS: [&str; 16] = [
    "0", "1", "2", "7", "32", "33", "255", "256", "4294967295", "4294967296", "-1", "-0", "-2147483648", "-2147483649", "2147483647", "2147483648",
];

fn number(rng: &mut Rng) -> String {
    match rng.below(4) {
        0 => rng.pick(&NUMBERS).to_string(),
        1 => format!("00{}", rng.below(300)),
        2 => format!("{}", rng.word() as i32),
        _ => format!("{}", rng.between(1, 9)),
    }
}

/// The words of a line that is of a form.
fn words(rng: &mut Rng) -> Vec<String> {
    let verb = rng.pick(&VERBS);
    let byte = |rng: &mut Rng| format!("{}", rng.below(256));
    let mut line = vec![verb.to_string()];
    match verb {
        "lock" => {
            line.extend([byte(rng), byte(rng)]);
            if rng.chance(1, 3) {
                line.push("own-arbiter".to_string());
            }
        }
        "order" => line.push(format!("{}", rng.word())),
        "vote" => {
            line.push(byte(rng));
            line.push(rng.pick(&["willing", "unwilling"]).to_string());
            line.push(format!("{}", rng.word() as i32));
        }
        "deliver" => {
            let kind = rng.between(4, 11);
            line.push(NAMES[kind].to_string());
            if kind >= 8 {
                line.push(format!("{}", rng.word()));
            }
            line.extend([byte(rng), byte(rng)]);
        }
        "arbiter" => {
            line.push(byte(rng));
            line.push(rng.pick(&["move", "stay"]).to_string());
        }
        "back" => {}
        "ballot" => line.extend([byte(rng), format!("{}", rng.below(256))]),
        _ => line.push(byte(rng)),
    }
    line
}

/// One fault in the words of a line.
fn damage(rng: &mut Rng, words: &mut Vec<String>) {
    let at = rng.below(words.len());
    match rng.below(6) {
        0 => {
            words.remove(at);
        }
        1 => words.insert(at, number(rng)),
        2 => words[at] = number(rng),
        3 => words[at] = rng.pick(&NAMES).to_string(),
        4 => words[at] = rng.pick(&VERBS).to_string(),
        _ => {
            let mut bytes: Vec<char> = words[at].chars().collect();
            let place = rng.below(bytes.len());
            bytes[place] = char::from(rng.between(33, 126) as u8);
            words[at] = bytes.into_iter().collect();
        }
    }
}

fn line(rng: &mut Rng, faults: bool) -> String {
    let mut words = words(rng);
    if faults && rng.chance(1, 4) {
        damage(rng, &mut words);
    }
    let gap = rng.pick(&[" ", " ", " ", "  ", "\t", " \t "]);
    let mut line = words.join(gap);
    if rng.chance(1, 8) {
        line = format!("{}{line}", rng.pick(&[" ", "\t", "  "]));
    }
    if rng.chance(1, 8) {
        line += rng.pick(&[" # a remark", "#", " ## 1 2", " ", "\r"]);
    }
    line
}

fn text(rng: &mut Rng) -> Vec<u8> {
    let faults = rng.chance(2, 3);
    let mut text = String::new();
    for _ in 0..rng.below(10) {
        match rng.below(12) {
            0 => text.push('\n'),
            1 => text.push_str("# order 1\n"),
            _ => {
                text += &line(rng, faults);
                text.push('\n');
            }
        }
    }
    if rng.chance(1, 5) {
        text.pop();
    }
    let mut bytes = text.into_bytes();
    if faults && rng.chance(1, 12) && !bytes.is_empty() {
        let at = rng.below(bytes.len());
        bytes[at] = rng.byte();
    }
    bytes
}

/// Records, most of them of listed fields; now and then a damaged one, or a short last piece.
fn records(rng: &mut Rng) -> Vec<u8> {
    let mut bytes = Vec::new();
    for _ in 0..rng.below(12) {
        let kind = rng.below(11) as u8;
        let (mut a, mut b, mut c, mut value) = (rng.byte(), 0, 0, 0);
        match kind {
            0 => (b, c) = (rng.byte(), rng.below(2) as u8),
            1 => (a, value) = (0, rng.word()),
            2 => (b, value) = (rng.below(2) as u8, rng.word()),
            3 => {
                (b, c) = (rng.byte(), rng.between(1, 8) as u8);
                if c > 4 {
                    value = rng.word();
                }
            }
            5 => b = rng.below(2) as u8,
            9 => a = 0,
            10 => value = rng.word(),
            _ => {}
        }
        bytes.extend([0x4C, 0x45, kind, a, b, c]);
        bytes.extend(value.to_be_bytes());
    }
    if rng.chance(1, 4) && !bytes.is_empty() {
        let at = rng.below(bytes.len());
        bytes[at] = rng.byte();
    }
    if rng.chance(1, 10) {
        bytes.truncate(bytes.len() - bytes.len().min(rng.below(10)));
    }
    bytes
}

/// Bytes that are of no form: any, or none below a space, now and then after the beginning of a mark.
fn bytes(rng: &mut Rng) -> Vec<u8> {
    let least = rng.pick(&[0, 32]);
    let mut bytes = rng.pick(&[&b""[..], b"", b"L", b"LE", b"#"]).to_vec();
    for _ in 0..rng.below(24) {
        bytes.push(rng.between(least, 255) as u8);
    }
    bytes
}

pub fn frame(rng: &mut Rng) -> [u8; FRAME] {
    let mode = rng.below(2) as u8;
    let as_text = rng.chance(3, 4) || mode == 0;
    let mut schedule = if rng.chance(1, 20) {
        bytes(rng)
    } else if as_text && !(mode == 0 && rng.chance(1, 8)) {
        text(rng)
    } else {
        records(rng)
    };
    schedule.truncate(FRAME - HEAD);
    let mut frame = [0; FRAME];
    frame[0] = mode;
    frame[1..3].copy_from_slice(&(schedule.len() as u16).to_be_bytes());
    frame[HEAD..HEAD + schedule.len()].copy_from_slice(&schedule);
    frame
}
