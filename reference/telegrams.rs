//! What a set of frames meets of telegrams of kinds 1 to 4 in their two forms (document 02, U12).

use crate::frame::{self, READ_MESSAGE, WRITE_MESSAGE};
use crate::records::form::Form;
use crate::records::telegram::Telegram;

/// The forms of kinds 1 to 4.
const FORMS: [Form; 2] = [Form::Short, Form::Long];

const READ_REFUSALS: [usize; 6] = [3, 4, 7, 8, 9, 10];
const WRITE_REFUSALS: [usize; 6] = [1, 4, 7, 8, 9, 10];

#[derive(Clone, Debug, Default)]
pub struct Telegrams {
    frames: u64,
    read: [u64; 2],
    written: [u64; 2],
    /// By question, by the form that length and mark tell; 1 and 2 come before that.
    no_form: [u64; 3],
    not_read: [[u64; 11]; 2],
    not_written: [[u64; 11]; 2],
    /// "a mark of the other length gets 2", by the form of the length; but U14 has a form of 20 bytes with the mark of 16,
    /// which kinds 1 to 4 do not suit: 3.
    other_mark: [u64; 2],
    /// "The long form with n below 17, and the short form with n above 16, get 4", by form; n and f are in range.
    other_form: [u64; 2],
    /// A buffer of the other form's length, by the message's form.
    other_buffer: [u64; 2],
}

impl Telegrams {
    /// Counts a frame that reads or writes a telegram; others are passed over.
    pub fn add(&mut self, frame: &[u8]) {
        let length = usize::from(frame[1]);
        match frame[0] {
            READ_MESSAGE => self.add_read(&frame[2..2 + length]),
            WRITE_MESSAGE => {
                if let Some(telegram) = frame::telegram_fields(&frame[2..]) {
                    self.add_written(&telegram, length);
                }
            }
            _ => {}
        }
    }

    pub fn frames(&self) -> u64 {
        self.frames
    }

    fn add_read(&mut self, bytes: &[u8]) {
        self.frames += 1;
        let number = match Telegram::read(bytes) {
            Ok(telegram) => return self.read[telegram.form() as usize] += 1,
            Err(number) => number,
        };
        match Form::of_bytes(bytes) {
            Err(_) => self.no_form[usize::from(number)] += 1,
            Ok(form @ (Form::Short | Form::Long)) => {
                self.not_read[form as usize][usize::from(number)] += 1;
            }
            Ok(_) => {}
        }
        for (form, refusal) in [(Form::Short, 2), (Form::Long, 3)] {
            if bytes.len() != form.length() {
                continue;
            }
            let other = form.of_other_width();
            if number == refusal && bytes[..2] == other.mark() {
                self.other_mark[form as usize] += 1;
            }
            let n = bytes[3];
            if number == 4 && (2..=32).contains(&n) && (1..n).contains(&bytes[4]) {
                self.other_form[form as usize] += 1;
            }
        }
    }

    fn add_written(&mut self, telegram: &Telegram, length: usize) {
        self.frames += 1;
        let form = telegram.form();
        match telegram.write(&mut vec![0; length]) {
            0 => self.written[form as usize] += 1,
            number => self.not_written[form as usize][usize::from(number)] += 1,
        }
        let lengths = FORMS.map(Form::length);
        if length != form.length() && lengths.contains(&length) {
            self.other_buffer[form as usize] += 1;
        }
    }

    /// Name and count of everything that the frames should meet.
    pub fn rows(&self) -> Vec<(String, u64)> {
        let by_form = [
            ("read in the FORM form", self.read),
            ("written in the FORM form", self.written),
            ("in the FORM form where n wants the other, 4", self.other_form),
            ("to be written in the FORM form into a buffer for the other, 1", self.other_buffer),
        ];
        let mut rows = Vec::new();
        for (name, counts) in by_form {
            for (form, word) in FORMS.into_iter().zip(["short", "long"]) {
                rows.push((name.replace("FORM", word), counts[form as usize]));
            }
        }
        let [short, long] = self.other_mark;
        rows.push(("of 16 bytes with mark 4C 4C, 2".to_string(), short));
        rows.push(("of 20 bytes with mark 4C 4B, 3".to_string(), long));
        rows.extend([1, 2].map(|q| (format!("refused by {q}, read"), self.no_form[q])));
        for (form, word) in FORMS.into_iter().zip(["short", "long"]) {
            let (read, written) = (self.not_read[form as usize], self.not_written[form as usize]);
            rows.extend(READ_REFUSALS.map(|q| (format!("refused by {q}, read, {word}"), read[q])));
            rows.extend(
                WRITE_REFUSALS.map(|q| (format!("refused by {q}, written, {word}"), written[q])),
            );
        }
        rows
    }
}
