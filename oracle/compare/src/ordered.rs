//! One job under a lent order through both sides (C-16): the text, the plan's text, and the run in lent stores.
use std::panic::{AssertUnwindSafe, catch_unwind};

use oracle::cases::Random;
use oracle::job::Read;
use oracle::order::{Answer, Ordered};
use oracle::plan::{Plan, Shapes};
use oracle::refusal::{Refusal, Stage};
use oracle::run::{End, Rooms, Run};

use crate::orders;
use crate::ours::{self, TEXT, TOO_LONG};
use crate::outcome::{Outcome, UNTOUCHED, begins_with, kind_of, printed, starts_with};

/// How long a buffer or a store is beside what is needed.
#[derive(Debug, Clone, Copy)]
pub enum Length {
    Ample,
    Exact,
    OneShort,
    Half,
    Empty,
}

const ALL: [Length; 5] = [Length::Ample, Length::Exact, Length::OneShort, Length::Half, Length::Empty];
const ENOUGH: &[Length] = &[Length::Ample, Length::Exact];
const TOO_SHORT: &[Length] = &[Length::OneShort, Length::Half, Length::Empty];

impl Length {
    fn of(self, need: usize) -> usize {
        match self {
            Length::Ample => need + 50,
            Length::Exact => need,
            Length::OneShort => need.saturating_sub(1),
            Length::Half => need / 2,
            Length::Empty => 0,
        }
    }
}

/// What a job is lent.
pub struct Lent {
    pub kind: orders::Kind,
    pub order: Vec<u8>,
    /// The buffers for the text and for the plan, beside one that is ample.
    pub text: Length,
    pub plan: Length,
    /// The message and the marginal store of two runs: in the first neither is short, in the second at least one.
    pub stores: [[Length; 2]; 2],
}

/// For a job of so many keys.
pub fn draw(random: &mut Random, keys: usize) -> Lent {
    let (kind, order) = orders::draw(random, keys);
    let first = random.chance(50);
    let mut one = |from: &[Length]| from[random.below(from.len())];
    let (text, plan) = (one(&ALL), one(&ALL));
    let enough = [one(ENOUGH), one(ENOUGH)];
    let short = if first { [one(TOO_SHORT), one(&ALL)] } else { [one(&ALL), one(TOO_SHORT)] };
    Lent { kind, order, text, plan, stores: [enough, short] }
}

/// What is counted of a job beside the outcome.
#[derive(Debug, Clone, Copy, Default, PartialEq, Eq, PartialOrd, Ord)]
pub struct Met {
    /// Its order was accepted and doesn't rise.
    pub reordered: bool,
    /// Its plan isn't that of rising keys.
    pub other_plan: bool,
    /// Nor is its text.
    pub other_text: bool,
    /// It was refused in a pass, and the key told isn't its own place in the order.
    pub other_key: bool,
    /// A short store was refused (14).
    pub short: bool,
    /// The order was refused (21), and with keys rising a store would have been short.
    pub unlike_and_short: bool,
}

/// The outcome, and what was met on the way to it. A panic says where the original disagrees with documents 01 and 02.
pub fn compare(job: &[u8], read: Read, lent: &Lent) -> (Outcome, Met) {
    catch_unwind(AssertUnwindSafe(|| compared(job, Ordered::of(read, &lent.order), lent))).unwrap_or_else(|panic| {
        let why = panic.downcast_ref::<String>().map(String::as_str).or(panic.downcast_ref::<&str>().copied());
        (Outcome::Differs(format!("panics: {}", why.unwrap_or(""))), Met::default())
    })
}

fn compared(job: &[u8], wanted: Ordered, lent: &Lent) -> (Outcome, Met) {
    let rising = Plan::new(&Shapes::of(&wanted.graph), &wanted.graph.all.keys().collect::<Vec<_>>());
    let plan = wanted.run.as_ref().map_or(&rising, |run| &run.plan);
    let rooms = lent.stores.map(|[messages, marginals]| Rooms {
        messages: messages.of(plan.figure()),
        marginals: marginals.of(plan.marginals()),
    });
    let plain = printed(job);
    let mut met = met(&wanted, &lent.order, &rising, &plain);
    let short = rooms.iter().any(|rooms| !rooms.hold(plan));
    (met.short, met.unlike_and_short) = (wanted.run.is_ok() && short, wanted.is_unlike() && short);
    let outcome = match held(job, lent, &wanted, &rooms, &plain) {
        Err(how) => Outcome::Differs(how),
        Ok(()) => match wanted.text() {
            Ok(text) => Outcome::Same(kind_of(&text)),
            Err(_) => Outcome::Outside("its plan is the same".to_string()),
        },
    };
    (outcome, met)
}

fn met(wanted: &Ordered, order: &[u8], rising: &Plan, plain: &[u8]) -> Met {
    let Ok(run) = &wanted.run else { return Met::default() };
    if order.is_sorted() {
        return Met::default();
    }
    Met {
        reordered: true,
        other_plan: run.plan.to_string() != rising.to_string(),
        other_text: wanted.text().is_ok_and(|text| text.as_bytes() != plain),
        other_key: pass_key(run).is_some_and(|key| usize::from(order[key]) != key),
        ..Met::default()
    }
}

/// The key that is told of a run refused in a pass.
fn pass_key(run: &Run) -> Option<usize> {
    match run.end {
        Some(End::Refused(Refusal { stage: Stage::Forward | Stage::Backward, place, .. })) => Some(place),
        _ => None,
    }
}

/// Both texts and both runs, or what differs first. With keys rising the text is that without an order, outside the domain too.
fn held(job: &[u8], lent: &Lent, wanted: &Ordered, rooms: &[Rooms], plain: &[u8]) -> Result<(), String> {
    let order = &lent.order;
    let text = |out: &mut [u8]| ours::ordered(job, order, out);
    if let Ok(printed) = wanted.text() {
        lays("text", text, printed.as_bytes(), lent.text)?;
    }
    lays("plan", |out| ours::ordered_plan(job, order, out), wanted.plan_text().as_bytes(), lent.plan)?;
    if wanted.run.is_ok() && order.is_sorted() {
        lays("text with keys rising", text, plain, lent.text)?;
    }
    rooms.iter().try_for_each(|&rooms| runs(job, order, wanted, rooms))
}

/// What no text holds.
static BLANK: [u8; TEXT] = [0xA5; TEXT];

/// A text in ample room, and in a buffer of this length.
fn lays(name: &str, call: impl Fn(&mut [u8]) -> usize, text: &[u8], length: Length) -> Result<(), String> {
    for room in [TEXT, length.of(text.len())] {
        let mut out = BLANK[..room].to_vec();
        let answer = call(&mut out);
        let (laid, told) = if text.len() <= room { (text, text.len()) } else { (&[][..], TOO_LONG) };
        let (front, rest) = out.split_at(laid.len());
        if answer != told || front != laid || rest != &BLANK[..rest.len()] {
            let [text, front] = [text, &out[..answer.min(room)]].map(String::from_utf8_lossy);
            return Err(format!("{name} in {room} bytes: wanted {told}, {text:?}; got {answer}, {front:?}"));
        }
    }
    Ok(())
}

/// A run in these stores: its answer, both stores and what lies behind. Outside the domain only the figure and the messages that
/// were finished before can be told.
fn runs(job: &[u8], order: &[u8], wanted: &Ordered, rooms: Rooms) -> Result<(), String> {
    let [mut messages, mut marginals] =
        [rooms.messages, rooms.marginals].map(|length| vec![f64::from_bits(UNTOUCHED); length]);
    let answer = ours::ordered_run(job, order, &mut messages, &mut marginals);
    let Answer { figure, end, messages: finished, marginals: found } = wanted.answer(rooms);
    let (same_answer, same_stores) = match end {
        Some(End::Outside(_)) => (answer >> 32 == figure, starts_with(&messages, &finished)),
        _ => (
            answer == figure << 32 | end.map_or(0, number),
            begins_with(&messages, &finished) && begins_with(&marginals, &found),
        ),
    };
    if same_answer && same_stores {
        return Ok(());
    }
    Err(format!("run in {rooms:?}: wanted {figure} and {end:?}, got {answer:#x}; stores equal: {same_stores}"))
}

/// R(n, s, p): refusal n at stage s and place p.
fn number(end: End) -> usize {
    match end {
        End::Refused(Refusal { reason, stage, place }) => {
            1 << 24 | (reason as usize) << 16 | (stage as usize) << 8 | place
        }
        End::Outside(_) => unreachable!("it isn't told"),
    }
}
