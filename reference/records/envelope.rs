//! What a telegram of any kind has before its sheet, but for mark and kind.

use super::form::Form;
use super::{read_u32, write_u32};
use crate::group::Group;
use crate::questions::{ask, group_in_range, order_in_range, route_in_range};

#[derive(Clone, Copy, PartialEq, Eq, Debug)]
pub struct Envelope {
    pub group: Group,
    pub from: u8,
    pub to: u8,
    pub order: u32,
}

impl Envelope {
    /// "4C 4B; kind ..; n; f; from; to; 0; order (4)". The byte that is 0 belongs to question 3.
    pub fn read(bytes: &[u8]) -> Envelope {
        Envelope {
            group: Group {
                n: bytes[3],
                f: bytes[4],
            },
            from: bytes[5],
            to: bytes[6],
            order: read_u32(bytes, 8),
        }
    }

    pub fn write(&self, buffer: &mut [u8], form: Form, kind: u8) {
        buffer[..2].copy_from_slice(&form.mark());
        buffer[2] = kind;
        buffer[3] = self.group.n;
        buffer[4] = self.group.f;
        buffer[5] = self.from;
        buffer[6] = self.to;
        buffer[7] = 0;
        write_u32(buffer, 8, self.order);
    }

    /// 4, as U12 has it: "The long form with n below 17, and the short form with n above 16, get 4".
    pub fn ask_form(&self, form: Form) -> Result<(), u8> {
        ask(4, Form::of(self.group.n, form.has_ballot()) == form)
    }

    /// 4, 7 and 8.
    pub fn ask_contents(&self) -> Result<(), u8> {
        group_in_range(self.group)?;
        route_in_range(self.group, self.from, self.to)?;
        order_in_range(self.order)
    }
}
