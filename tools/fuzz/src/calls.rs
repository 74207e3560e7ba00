//! The four calls, each made once with buffers of some length and held against what is due.
use crate::due::{self, Answer, Walked, answer};
use crate::lent::Lent;
use crate::tally::{Tally, Trial};
use oracle::generate::Rng;
use oracle::stored::{MAX_CHUNKS, Refusal};

pub struct TreeCase<'a> {
    pub options: &'a [u8],
    pub tree: &'a [u8],
    pub walked: Result<Walked, Refusal>,
}

impl TreeCase<'_> {
    fn lend(&self, rng: &mut Rng) -> (Lent, Lent) {
        (Lent::input(rng, self.options), Lent::input(rng, self.tree))
    }

    fn walked(&self) -> Result<&Walked, Refusal> {
        self.walked.as_ref().map_err(|refusal| *refusal)
    }
}

pub struct ListCase<'a> {
    pub options: &'a [u8],
    pub list: &'a [u8],
    pub joined: Result<Vec<u8>, Refusal>,
}

fn got(result: Result<usize, felgutrosa::Refusal>) -> Answer {
    match result {
        Ok(length) => (0, length),
        Err(refusal) => (refusal.reason.number(), refusal.place),
    }
}

/// The length of a buffer for something that needs `need` bytes.
fn length_for(rng: &mut Rng, need: usize) -> usize {
    match rng.below(64) {
        0..=23 => need,
        24..=35 => need.saturating_sub(1),
        36..=39 => 0,
        40..=43 => rng.below(need + 1),
        44 => MAX_CHUNKS + rng.below(3),
        _ => need + 1 + rng.below(100),
    }
}

pub fn try_check_tree(rng: &mut Rng, tally: &mut Tally, tree: &[u8]) {
    let mut lent = Lent::input(rng, tree);
    let got = got(felgutrosa::check_tree(lent.slice()).map(|()| 0));
    tally.hold(Trial {
        call: 0,
        options: &[],
        input: tree,
        lengths: [0, 0],
        due: answer(due::checked(tree)),
        text: &[],
        got,
        buffers: lent.unchanged(),
    });
}

/// After 1 to 7 the room is as it was; else the walk writes no more than it needs.
pub fn try_chunks(rng: &mut Rng, tally: &mut Tally, case: &TreeCase) {
    let need = case.walked().map_or(100, Walked::need);
    let length = length_for(rng, need);
    let (mut options, mut tree) = case.lend(rng);
    let mut room = Lent::room(rng, length);
    let got = got(felgutrosa::chunks(
        tree.slice(),
        options.slice(),
        room.slice(),
    ));
    let chunks = case.walked().and_then(|walked| walked.chunks_in(length));
    let written = case.walked().map_or(0, |walked| walked.written(length));
    let holds = match chunks {
        Ok(chunks) => room.slice().starts_with(chunks),
        Err(_) => true,
    };
    tally.hold(Trial {
        call: 1,
        options: case.options,
        input: case.tree,
        lengths: [length, 0],
        due: answer(chunks.map(<[u8]>::len)),
        text: chunks.unwrap_or(&[]),
        got,
        buffers: holds && room.kept_behind(written) && tree.unchanged() && options.unchanged(),
    });
}

pub fn try_format(rng: &mut Rng, tally: &mut Tally, case: &TreeCase) {
    let needs = case
        .walked()
        .map_or((100, 100), |w| (w.need(), w.text.len()));
    let (room_length, text_length) = match rng.below(2) {
        0 => (needs.0, length_for(rng, needs.1)),
        _ => (length_for(rng, needs.0), length_for(rng, needs.1)),
    };
    let (mut options, mut tree) = case.lend(rng);
    let mut room = Lent::room(rng, room_length);
    let mut text = Lent::room(rng, text_length);
    let got = got(felgutrosa::format(
        tree.slice(),
        options.slice(),
        room.slice(),
        text.slice(),
    ));
    let due = case
        .walked()
        .and_then(|walked| walked.text_in(room_length, text_length));
    tally.hold(Trial {
        call: 2,
        options: case.options,
        input: case.tree,
        lengths: [room_length, text_length],
        due: answer(due.map(<[u8]>::len)),
        text: due.unwrap_or(&[]),
        got,
        buffers: text.holds(due.unwrap_or(&[]))
            && room.is_zeros()
            && tree.unchanged()
            && options.unchanged(),
    });
}

pub fn try_join_chunks(rng: &mut Rng, tally: &mut Tally, case: &ListCase) {
    let need = case.joined.as_ref().map_or(100, Vec::len);
    let length = length_for(rng, need);
    let mut options = Lent::input(rng, case.options);
    let mut list = Lent::input(rng, case.list);
    let mut text = Lent::room(rng, length);
    let got = got(felgutrosa::join_chunks(
        list.slice(),
        options.slice(),
        text.slice(),
    ));
    let due = match &case.joined {
        Ok(text) => due::fitting(text, length),
        Err(refusal) => Err(*refusal),
    };
    tally.hold(Trial {
        call: 3,
        options: case.options,
        input: case.list,
        lengths: [0, length],
        due: answer(due.map(<[u8]>::len)),
        text: due.unwrap_or(&[]),
        got,
        buffers: text.holds(due.unwrap_or(&[])) && list.unchanged() && options.unchanged(),
    });
}
