//! What was corrected, and what came of it: every number, every fault of a list, where
//! a number is told beside others, and which revisions were sent in which order.

use super::called::{self, label, Called, OF_NARROW, OF_WIDE, OWN};
use super::layouts::MOST_OF_A_BYTE;
use super::one_way;
use super::sent::{cause, Clash, Sent, CAUSES};
use reference::correct::{first_fault, Aim, WORDS_PER_CORRECTION};
use reference::generate::tools::Given;
use reference::layout::Layout;
use reference::sheet::{MOST_SAMPLES, MOST_SIGNALS};
use reference::tool::{self, Left};
use reference::words::{self, kinds};

/// A call asked for the corrections of a list.
type Corrected = Called<List>;

type Shown = called::Shown<List>;

/// What a call was asked for, and where it was refused.
pub struct List {
    sent: Sent,
    place: usize,
}

const NAME: &str = "corrected";

/// A list of more corrections is a long one: no sheet of few words has it.
const LONG: usize = 1_000;

/// Fewer words may be too few to look for clashes in.
const SOME_WORDS: usize = 64;

const OF_ALL: [Shown; 15] = [
    ("a narrow sheet", &[0, 15, 19, 20], |call| !call.layout().is_wide()),
    ("a wide sheet", &[0, 15, 19, 20], |call| call.layout().is_wide()),
    ("more than 64 places", &[0, 15, 19, 20], |call| call.is_city()),
    ("roads one way", &[0, 15, 19, 20], |call| one_way::is_in(&call.words)),
    ("a narrow sheet", &OF_NARROW, |call| !call.layout().is_wide()),
    ("a wide sheet", &OF_WIDE, |call| call.layout().is_wide()),
    ("no room", &OWN, |call| call.room() == 0),
    ("some room", &OWN, |call| call.room() > 0),
    ("no correction", &OWN, |call| call.sent().corrections.is_empty()),
    ("an ill-formed list besides", &OWN, |call| call.sent().is_ill_formed()),
    ("a clash besides", &OWN, |call| call.sent().has_clash()),
    ("no word", &[2], |call| call.words.is_empty()),
    ("no room", &[19, 20], |call| call.room() == 0),
    ("a short output besides", &[19, 20], |call| call.is_short() && call.room() > 0),
    ("enough room", &[19, 20], |call| !call.is_short()),
];

const OF_WRITTEN: [Shown; 28] = [
    ("no correction", &[0], |call| call.sent().corrections.is_empty()),
    ("one correction", &[0], |call| call.sent().corrections.len() == 1),
    ("more corrections than words", &[0], |call| call.outnumbers(call.words.len())),
    ("more corrections than words lent, which are 64 or more", &[0], |call| {
        call.has_no_word_for_each()
    }),
    ("more than 1,000 corrections", &[0], |call| call.outnumbers(LONG)),
    ("above 65,536 words", &[0], |call| call.is_long()),
    ("room exact", &[0], |call| call.room() == call.needed()),
    ("a word more of room", &[0], |call| call.room() == call.needed() + 1),
    ("1,000 words more of room", &[0], |call| call.room() >= call.needed() + 1_000),
    ("nothing changes", &[0], |call| call.all_values(|value, sample| value == sample)),
    ("the first sample", &[0], |call| call.is_aimed_at(|index, _| index == 0)),
    ("the last sample", &[0], |call| call.is_aimed_at(|index, count| index + 1 == count)),
    ("every sample", &[0], |call| call.sent().by_sample().len() == call.samples()),
    ("the last of 16 signals", &[0], |call| {
        call.has_aim(|aim| aim.signal as usize + 1 == MOST_SIGNALS)
    }),
    ("the last of 1,024 times", &[0], |call| {
        call.has_aim(|aim| aim.time as usize + 1 == MOST_SAMPLES)
    }),
    ("a place above 255", &[0], |call| call.has_aim(|aim| aim.place as usize > MOST_OF_A_BYTE)),
    ("the highest revision first", &[0], |call| call.has_highest(|at, last| at == 0 && last > 0)),
    ("the highest revision last", &[0], |call| call.has_highest(|at, last| at > 0 && at == last)),
    ("the highest revision between others", &[0], |call| {
        call.has_highest(|at, last| at > 0 && at < last)
    }),
    ("revisions below and above 128, up", &[0], |call| {
        call.has_step(|one, next| one < 128 && next >= 128)
    }),
    ("revisions below and above 128, down", &[0], |call| {
        call.has_step(|one, next| one >= 128 && next < 128)
    }),
    ("revision 1 alone", &[0], |call| call.sent().some_revisions(|all| all == [1])),
    ("revision 255", &[0], |call| call.sent().some_revisions(|all| all.contains(&255))),
    ("the same sent again next to it", &[0], |call| call.has_step(|one, next| one == next)),
    ("the same sent again, others between", &[0], |call| {
        call.sent()
            .some_revisions(|all| all.first() == all.last() && all.iter().any(|r| r != &all[0]))
    }),
    ("the same sent again below the highest", &[0], |call| {
        call.sent().some_revisions(|all| {
            let highest = all.iter().max();
            all.windows(2).any(|pair| pair[0] == pair[1] && Some(&pair[0]) < highest)
        })
    }),
    ("20 revisions of a sample", &[0], |call| call.sent().some_revisions(|all| all.len() >= 20)),
    ("equal values in unlike revisions", &[0], |call| call.has_equal_values()),
];

const OF_SHORT: [Shown; 6] = [
    ("a word short", &[15], |call| call.is_a_word_short()),
    ("some room", &[15], |call| call.has_some_room()),
    ("no room", &[15], |call| call.room() == 0),
    ("fewer words than corrections", &[15], |call| call.room() > 0 && call.outnumbers(call.room())),
    ("no fewer words than corrections", &[15], |call| {
        !call.sent().corrections.is_empty() && !call.outnumbers(call.room())
    }),
    ("no correction", &[15], |call| call.sent().corrections.is_empty()),
];

const OF_LENGTHS: [Shown; 9] = [
    ("the sheet alone", &[16], |call| call.is_wrong_alone(0)),
    ("the list alone", &[16], |call| call.is_wrong_alone(1)),
    ("the output alone", &[16], |call| call.is_wrong_alone(2)),
    ("the result alone", &[16], |call| call.is_wrong_alone(3)),
    ("no byte of result", &[16], |call| call.result() == 0),
    ("a faulty sheet besides", &[16], |call| !call.words.is_empty() && !call.is_valid()),
    ("a faulty list besides", &[16], |call| call.is_valid() && call.has_faulty_list()),
    ("a clash besides", &[16], |call| {
        call.is_valid() && !call.has_faulty_list() && call.sent().has_clash()
    }),
    ("a short output besides", &[16], |call| call.is_valid() && call.is_short()),
];

const OF_FAULTS: [Shown; 6] = [
    ("the first correction", &[19], |call| call.correction() == 0),
    ("the last of more", &[19], |call| {
        call.correction() > 0 && call.correction() + 1 == call.sent().corrections.len()
    }),
    ("between others", &[19], |call| {
        call.correction() > 0 && call.correction() + 1 < call.sent().corrections.len()
    }),
    ("a clash before it", &[19], |call| !call.sent().clashes(call.correction()).is_empty()),
    ("a clash behind it", &[19], |call| {
        call.sent().clashes(call.correction()).is_empty() && call.sent().has_clash()
    }),
    ("missing words besides", &[19], |call| {
        let length = call.sent().words.len();
        call.asked.place < length && !length.is_multiple_of(WORDS_PER_CORRECTION)
    }),
];

const OF_CLASHES: [Shown; 12] = [
    ("at the highest revision", &[20], |call| call.higher().next().is_none()),
    ("below the highest, which stands first", &[20], |call| {
        call.higher().any(|at| at < call.clash().first)
    }),
    ("below the highest, which stands between", &[20], |call| {
        let Clash { first, later } = call.clash();
        call.higher().any(|at| at > first && at < later)
    }),
    ("below the highest, which stands behind", &[20], |call| {
        call.higher().any(|at| at > call.clash().later)
    }),
    ("next to each other", &[20], |call| call.clash().first + 1 == call.clash().later),
    ("others between", &[20], |call| call.clash().first + 1 < call.clash().later),
    ("the same sent again between", &[20], |call| call.has_resend_between()),
    ("another clash behind it", &[20], |call| {
        call.sent().clashes(call.sent().corrections.len()).len() > 1
    }),
    ("a revision above 127", &[20], |call| {
        call.sent().corrections[call.clash().later].revision > 127
    }),
    ("farther apart than words are lent, which are 64 or more", &[20], |call| {
        let Clash { first, later } = call.clash();
        call.has_no_word_for_each() && later - first > call.room()
    }),
    ("another behind it that begins before it, and no word for each correction", &[20], |call| {
        let begins_before = |other: &Clash| other.first < call.clash().first;
        let clashes = call.sent().clashes(call.sent().corrections.len());
        call.has_no_word_for_each() && clashes.iter().any(begins_before)
    }),
    ("the first and the last of more than 1,000", &[20], |call| {
        call.outnumbers(LONG) && call.clash() == call.ends()
    }),
];

/// All labels: the numbers, what is shown with them, and every fault of a list in both
/// layouts. 1 and 18 never arise.
pub fn labels() -> impl Iterator<Item = String> {
    let numbers = [0, 15, 16, 19, 20].into_iter().chain(OWN);
    let faults = CAUSES.iter().flat_map(|cause| Layout::BOTH.map(|layout| of_cause(cause, layout)));
    called::labels(NAME, numbers, texts()).chain(faults)
}

fn texts() -> impl Iterator<Item = &'static Shown> {
    let of_refused = OF_SHORT.iter().chain(&OF_LENGTHS).chain(&OF_FAULTS).chain(&OF_CLASHES);
    OF_ALL.iter().chain(&OF_WRITTEN).chain(of_refused)
}

fn of_cause(cause: &str, layout: Layout) -> String {
    let sheet = if layout.is_wide() { "a wide sheet" } else { "a narrow sheet" };
    label(NAME, 19, &format!("{cause}, {sheet}"))
}

/// The labels of a call with what was given and what it left.
pub fn shown(given: &Given, left: &Left) -> Vec<String> {
    let place = left.outcome().map_or(0, |outcome| outcome.place as usize);
    let list = List { sent: Sent::of(&given.inputs[1]), place };
    let call = Called::new(list, given, left, 0);
    let fault = (call.number == 19).then(|| {
        let cause = cause(&call.sent().words, place, &call.front());
        of_cause(cause, call.layout())
    });
    call.shown(NAME, texts()).chain(fault).collect()
}

impl Corrected {
    fn sent(&self) -> &Sent {
        &self.asked.sent
    }

    fn outnumbers(&self, words: usize) -> bool {
        self.sent().corrections.len() > words
    }

    /// Whether some words are lent, but fewer than there are corrections.
    fn has_no_word_for_each(&self) -> bool {
        self.room() >= SOME_WORDS && self.outnumbers(self.room())
    }

    /// How many samples a valid sheet has.
    fn samples(&self) -> usize {
        let front = self.front();
        front.places * front.middle * front.samples
    }

    fn has_aim(&self, is_so: impl Fn(&Aim) -> bool) -> bool {
        self.sent().corrections.iter().any(|correction| is_so(&correction.aim))
    }

    /// Where an aim stands among the samples of a valid sheet.
    fn index(&self, aim: &Aim) -> usize {
        let front = self.front();
        let row = aim.time as usize * front.places + aim.place as usize;
        row * front.middle + aim.signal as usize
    }

    /// By the index of a sample and the count of all.
    fn is_aimed_at(&self, is_so: impl Fn(usize, usize) -> bool) -> bool {
        self.has_aim(|aim| is_so(self.index(aim), self.samples()))
    }

    /// Whether there are corrections, and something is so of each and the sample that the
    /// sheet has: by their words.
    fn all_values(&self, is_so: impl Fn(u32, u32) -> bool) -> bool {
        let samples = words::indices(&self.words, |kind| kind == kinds::SAMPLE);
        let sent = &self.sent().corrections;
        let mut pairs = sent.iter().map(|one| (one.words()[2], samples[self.index(&one.aim)]));
        !sent.is_empty() && pairs.all(|(value, at)| is_so(value, self.words[at]))
    }

    /// Whether the highest revision of a sample stands, once, where something is so: by
    /// its index among the sample's corrections and that of the last.
    fn has_highest(&self, is_so: impl Fn(usize, usize) -> bool) -> bool {
        self.sent().some_revisions(|all| {
            let highest = all.iter().max();
            let at: Vec<usize> = (0..all.len()).filter(|&at| Some(&all[at]) == highest).collect();
            at.len() == 1 && is_so(at[0], all.len() - 1)
        })
    }

    /// By two revisions of a sample, one right after the other.
    fn has_step(&self, is_so: impl Fn(u32, u32) -> bool) -> bool {
        self.sent().some_revisions(|all| all.windows(2).any(|pair| is_so(pair[0], pair[1])))
    }

    fn has_equal_values(&self) -> bool {
        let sent = &self.sent().corrections;
        self.sent().by_sample().into_values().any(|indices| {
            let mut steps = indices.windows(2).map(|pair| (sent[pair[0]], sent[pair[1]]));
            steps.any(|(one, next)| one.revision != next.revision && one.value == next.value)
        })
    }

    /// Of a valid sheet.
    fn has_faulty_list(&self) -> bool {
        let head = tool::valid(&self.words).map(|sheet| sheet.head);
        head.is_ok_and(|head| first_fault(&self.sent().words, &head).is_some())
    }

    /// The correction at which it was refused.
    fn correction(&self) -> usize {
        self.asked.place / WORDS_PER_CORRECTION
    }

    /// The clash for which it was refused.
    fn clash(&self) -> Clash {
        self.sent().clashes(self.correction() + 1)[0]
    }

    /// The corrections of the sample that clashes which have a higher revision.
    fn higher(&self) -> impl Iterator<Item = usize> + '_ {
        self.sent().above(self.correction())
    }

    /// Whether between the two that clash the first was sent again.
    fn has_resend_between(&self) -> bool {
        let (Clash { first, later }, sent) = (self.clash(), &self.sent().corrections);
        sent[first + 1..later].contains(&sent[first])
    }

    /// The first correction and the last.
    fn ends(&self) -> Clash {
        Clash { first: 0, later: self.sent().corrections.len() - 1 }
    }
}

#[cfg(test)]
mod tests;
