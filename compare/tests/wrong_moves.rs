//! The comparison must see each wrong way of moving a sheet between the editions.

use compare::check::check;
use compare::program::{Calls, Here, Second};
use compare::second::edition::{Edition, FIELDS};
use compare::second::fault::Fault;
use compare::second::make::Made;
use compare::second::sheet::Sheet;

/// A program that is right but for one thing.
#[derive(Clone, Copy, PartialEq, Debug)]
enum Wrong {
    TotalNotRaised,
    TotalNotLowered,
    MarkKept,
    NewBytesBeforeTheFields,
    NewBytesBehindTheTotal,
    NewByteNotZero,
    BehindTheSheet,
    Length,
    RefusedWrites,
    NoRoomWrites,
    NoRoomForTheLastByte,
    RoomBeforeRule,
    RuleForRoom,
    RuleDropped,
    WantedMarkCopied,
    WantedMarkLast,
    Table,
}

impl Wrong {
    /// What it writes for a moved sheet.
    fn change(self, wanted: Edition, sheet: &mut [u8]) {
        let (tables, end) = (sheet.len() - wanted.trailer(), sheet.len());
        match (self, wanted) {
            (Wrong::TotalNotRaised, Edition::Second) => write_total(sheet, end - 4),
            (Wrong::TotalNotLowered, Edition::First) => write_total(sheet, end + 4),
            (Wrong::MarkKept, _) => sheet[end - 1] ^= b'1' ^ b'2',
            (Wrong::NewBytesBeforeTheFields, Edition::Second) => {
                sheet[tables..tables + FIELDS + 4].rotate_right(4);
            }
            (Wrong::NewBytesBehindTheTotal, Edition::Second) => {
                sheet[end - 12..end - 4].rotate_left(4);
            }
            (Wrong::NewByteNotZero, Edition::Second) => sheet[end - 12] = 1,
            _ => {}
        }
    }

    /// What it says and leaves where it should have refused.
    fn refused(self, wanted: Edition, sheet: &[u8], room: &mut [u8], made: Made) -> Made {
        let alone = |number| Made::refused(Fault::alone(number));
        let fault = Sheet::check(sheet).err();
        match (self, made.number) {
            (Wrong::RefusedWrites, 12..=17) if !room.is_empty() => room[0] = 0,
            (Wrong::NoRoomWrites, 41) if !room.is_empty() => room[0] = sheet[0],
            (Wrong::RoomBeforeRule, 40) if room.len() < sheet.len() - 4 => return alone(41),
            (Wrong::RuleForRoom, 41) if wanted == Edition::First => return alone(40),
            (Wrong::RuleDropped, 40) => {
                let mut rule_0 = sheet.to_vec();
                rule_0[sheet.len() - 12] = 0;
                return Second.to_edition(wanted, &rule_0, room);
            }
            (Wrong::WantedMarkCopied, 12) if fault.is_none() && sheet.len() <= room.len() => {
                room[..sheet.len()].copy_from_slice(sheet);
                return Made::written(sheet.len());
            }
            (Wrong::WantedMarkLast, 12) => return fault.map_or(made, Made::refused),
            (Wrong::Table, 14) => return Made { table: made.table ^ 1, ..made },
            _ => {}
        }
        made
    }
}

fn write_total(sheet: &mut [u8], total: usize) {
    let at = sheet.len() - 8;
    sheet[at..at + 4].copy_from_slice(&(total as u32).to_le_bytes());
}

impl Calls for Wrong {
    fn to_edition(&self, wanted: Edition, sheet: &[u8], room: &mut [u8]) -> Made {
        let lent = room.to_vec();
        let made = Second.to_edition(wanted, sheet, room);
        if made.number != 0 {
            return self.refused(wanted, sheet, room, made);
        }
        let behind = made.length as usize;
        self.change(wanted, &mut room[..behind]);
        match self {
            Wrong::BehindTheSheet if behind < room.len() => room[behind] = 0,
            Wrong::Length => return Made::written(sheet.len()),
            Wrong::NoRoomForTheLastByte if behind == room.len() => {
                room.copy_from_slice(&lent);
                return Made::refused(Fault::alone(41));
            }
            _ => {}
        }
        made
    }
}

#[test]
fn every_wrong_move_is_seen() {
    let wrongs = [
        Wrong::TotalNotRaised,
        Wrong::TotalNotLowered,
        Wrong::MarkKept,
        Wrong::NewBytesBeforeTheFields,
        Wrong::NewBytesBehindTheTotal,
        Wrong::NewByteNotZero,
        Wrong::BehindTheSheet,
        Wrong::Length,
        Wrong::RefusedWrites,
        Wrong::NoRoomWrites,
        Wrong::NoRoomForTheLastByte,
        Wrong::RoomBeforeRule,
        Wrong::RuleForRoom,
        Wrong::RuleDropped,
        Wrong::WantedMarkCopied,
        Wrong::WantedMarkLast,
        Wrong::Table,
    ];
    for wrong in wrongs {
        assert!(check(&mut Here::new(wrong), 7, 0..100, None).is_err(), "{wrong:?}");
    }
}
