//! Calls made to both programs: their answers and every byte of every buffer are compared. Many
//! calls are on the way to the other program at once.

use std::collections::VecDeque;

use crate::call::{bytes, words, Buffer, Call, Name, Place, Reply};
use crate::program::{hex, Program};
use crate::second::edition::Edition;
use crate::second::fault::Fault;
use crate::second::gate::gate;
use crate::second::make::make;
use crate::second::moving::to_edition;
use crate::second::sheet::Sheet;
use crate::second::solve::{solve_by, Walked};
use crate::seed::Seeded;
use crate::tally::{mover, Tally};

/// So many calls and bytes of theirs are on the way at most.
const CALLS: usize = 64;
const BYTES: usize = 1 << 25;

/// What was asked and how the two programs differ.
#[derive(Debug)]
pub struct Difference(pub String);

/// A program under comparison with the second one, and what has been met so far.
pub struct Comparison<'a> {
    program: &'a mut dyn Program,
    pub tally: Tally,
    case: u64,
    places: Seeded,
    waiting: VecDeque<Waiting>,
    waiting_bytes: usize,
}

/// A call on the way.
struct Waiting {
    case: u64,
    call: Call,
    expected: Reply,
}

/// What the solver is lent besides the sheet: words of workspace, bytes of output.
#[derive(Clone, Copy, Debug)]
pub struct SolveCall {
    pub budget: u64,
    pub work: usize,
    pub out: usize,
}

/// What the maker is lent besides the sheet: bytes of space.
#[derive(Clone, Copy, Debug)]
pub struct MakeCall {
    pub row: u64,
    pub length: u64,
    pub space: usize,
}

/// What the gate is lent: the list, the text, the word, words of workspace.
#[derive(Clone, Copy)]
pub struct GateCall<'a> {
    pub list: &'a [u8],
    pub text: &'a [u8],
    pub word: &'a [u8],
    pub work: usize,
}

impl<'a> Comparison<'a> {
    pub fn new(program: &'a mut dyn Program) -> Comparison<'a> {
        let (tally, waiting) = (Tally::default(), VecDeque::new());
        Comparison { program, tally, case: 0, places: Seeded::new(0, 0), waiting, waiting_bytes: 0 }
    }

    /// The calls from here on are of this case; they are placed the same whenever it is repeated.
    pub fn begin(&mut self, case: u64) {
        self.case = case;
        self.places = Seeded::new(0, case);
    }

    /// The second program answers by the given walk, so that it need not walk for each budget.
    pub fn solve(
        &mut self,
        sheet: &[u8],
        call: SolveCall,
        walk: impl FnOnce(&Sheet, u64) -> Option<Walked>,
    ) -> Result<(), Difference> {
        let lent = [self.lent("workspace", 8 * call.work), self.lent("output", call.out)];
        let (mut work, mut out) = (words(&lent[0].bytes), lent[1].bytes.clone());
        let second = solve_by(walk, sheet, call.budget, &mut work, &mut out);
        self.tally.answer("solve", second.fault());

        let buffers = vec![sheet.to_vec(), bytes(&work), out];
        let expected = Reply { answer: second.numbers(), buffers };
        let [work, out] = lent;
        let buffers = vec![self.read("sheet", sheet), work, out];
        self.put(Call::new(Name::Solve, &[("budget", call.budget)], buffers), expected)
    }

    /// The list, if one was written.
    pub fn make(&mut self, sheet: &[u8], call: MakeCall) -> Result<Option<Vec<u8>>, Difference> {
        let lent = self.lent("list", call.space);
        let mut list = lent.bytes.clone();
        let second = make(sheet, call.row, call.length, &mut list);
        self.tally.answer("make", second.fault());

        let written = (second.number == 0).then(|| list[..second.length as usize].to_vec());
        let expected = Reply { answer: second.numbers(), buffers: vec![sheet.to_vec(), list] };
        let numbers = [("row", call.row), ("length", call.length)];
        let buffers = vec![self.read("sheet", sheet), lent];
        self.put(Call::new(Name::Make, &numbers, buffers), expected)?;
        Ok(written)
    }

    pub fn gate(&mut self, call: GateCall) -> Result<(), Difference> {
        let GateCall { list, text, word, work } = call;
        let lent = self.lent("workspace", 8 * work);
        let mut work = words(&lent.bytes);
        let second = gate(list, text, word, &mut work);
        self.tally.answer("gate", Fault::alone(second));

        let buffers = vec![list.to_vec(), text.to_vec(), word.to_vec(), bytes(&work)];
        let expected = Reply { answer: vec![second.into()], buffers };
        let (list, text) = (self.read("list", list), self.read("text", text));
        let buffers = vec![list, text, self.read("word", word), lent];
        self.put(Call::new(Name::Gate, &[], buffers), expected)
    }

    /// Moves the sheet to the wanted edition, with so many bytes of room; the moved sheet, if one was
    /// written.
    pub fn to_edition(
        &mut self,
        wanted: Edition,
        sheet: &[u8],
        room: usize,
    ) -> Result<Option<Vec<u8>>, Difference> {
        let lent = self.lent("room", room);
        let mut room = lent.bytes.clone();
        let second = to_edition(wanted, sheet, &mut room);
        self.tally.answer(mover(wanted), second.fault());

        let written = (second.number == 0).then(|| room[..second.length as usize].to_vec());
        let expected = Reply { answer: second.numbers(), buffers: vec![sheet.to_vec(), room] };
        let buffers = vec![self.read("sheet", sheet), lent];
        self.put(Call::new(Name::Move(wanted), &[], buffers), expected)?;
        Ok(written)
    }

    fn read(&mut self, name: &'static str, bytes: &[u8]) -> Buffer {
        let place = if self.places.once_in(6) { Place::First } else { Place::Last };
        Buffer { name, bytes: bytes.to_vec(), place }
    }

    fn lent(&mut self, name: &'static str, length: usize) -> Buffer {
        let places = [Place::Last, Place::Last, Place::WordBefore, Place::First];
        Buffer { place: self.places.pick(&places), ..Buffer::lent(name, length) }
    }

    /// Puts a call of any sort to the other program.
    pub fn put(&mut self, call: Call, expected: Reply) -> Result<(), Difference> {
        let case = self.case;
        self.program.put(&call).map_err(Difference)?;
        self.waiting_bytes += call.bytes();
        self.waiting.push_back(Waiting { case, call, expected });
        while self.waiting.len() > CALLS || self.waiting_bytes > BYTES {
            self.settle_one()?;
        }
        Ok(())
    }

    /// Waits for all that is on the way.
    pub fn settle(&mut self) -> Result<(), Difference> {
        while !self.waiting.is_empty() {
            self.settle_one()?;
        }
        Ok(())
    }

    fn settle_one(&mut self) -> Result<(), Difference> {
        let Some(Waiting { case, call, expected }) = self.waiting.pop_front() else {
            return Ok(());
        };
        self.waiting_bytes -= call.bytes();
        let faults = match self.program.reply(&call) {
            Ok(reply) if reply == expected => return Ok(()),
            Ok(reply) => faults(&call, &expected, &reply),
            Err(ended) => ended,
        };
        Err(Difference(format!("case {case}\n{call}\n{faults}")))
    }
}

/// How a reply differs from what was expected.
fn faults(call: &Call, expected: &Reply, reply: &Reply) -> String {
    let (second, other) = (&expected.answer, &reply.answer);
    let mut faults = vec![format!("second program {second:?}\nproved library {other:?}")];
    let buffers = call.buffers.iter().zip(expected.buffers.iter().zip(&reply.buffers));
    for (buffer, (second, other)) in buffers {
        if let Some(at) = second.iter().zip(other).position(|(one, other)| one != other) {
            let near = at..(at + 16).min(second.len());
            let (one, other) = (hex(&second[near.clone()]), hex(&other[near]));
            faults.push(format!("{} differs from byte {at}: {one} and {other}", buffer.name));
        }
    }
    faults.join("\n")
}
