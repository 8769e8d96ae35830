//! Jobs under lent orders of keys (C-16), for the program `ordered`: right orders, each way in which one is wrong, and which refusal
//! is told where several are due.
use super::graphs::{Style, any_links, chain, graph, ladder, ring, some_sizes, star};
use super::limits::{FULL, ONE_OVER, needing};
use super::orders::{both_ends, falling, inside_out, rising, shuffled};
use super::pairs::{keyless_first, three_priors};
use super::refusals::free;
use super::{DRAWS, Job, Random, succeeds, two_to};
use crate::job::{self, FACTORS, MESSAGE_STORE, VARIABLES};
use crate::order::{Ordered, keys};
use crate::plan::{Plan, Shapes};
use crate::run::STRIPS;
use nalgebra::tolerance::published;

/// A job and the order that it is lent.
pub struct OrderedCase {
    pub name: String,
    pub order: Vec<u8>,
    pub job: Vec<u8>,
}

/// What is told of it: the figure that the run answers, and the texts of the run and of the plan.
pub struct Told {
    pub figure: usize,
    pub text: String,
    pub plan: String,
}

impl OrderedCase {
    /// It is in the domain.
    pub fn told(&self) -> Told {
        let ordered = Ordered::new(&self.job, &self.order);
        let text = ordered.text().unwrap_or_else(|outside| panic!("{}: {outside}", self.name));
        Told { figure: ordered.answer(STRIPS).figure, text, plan: ordered.plan_text() }
    }

    pub fn prints(&self) -> String {
        let Told { figure, text, plan } = self.told();
        format!("figure {figure}\n{text}{plan}")
    }

    /// As `ordered` reads it: the order and the job, each behind the count of its bytes.
    pub fn bytes(&self) -> Vec<u8> {
        [counted(&self.order), counted(&self.job)].concat()
    }
}

/// The count takes two bytes, the lower one first.
fn counted(bytes: &[u8]) -> Vec<u8> {
    let count = u16::try_from(bytes.len()).expect("two bytes count it");
    [&count.to_le_bytes(), bytes].concat()
}

/// What `ordered` reads, and what it must print.
pub fn input(cases: &[OrderedCase]) -> Vec<u8> {
    cases.iter().flat_map(OrderedCase::bytes).collect()
}

pub fn output(cases: &[OrderedCase]) -> String {
    cases.iter().map(OrderedCase::prints).collect()
}

#[derive(Default)]
struct Cases(Vec<OrderedCase>);

impl Cases {
    fn add(&mut self, name: impl Into<String>, job: &Job, order: &[u8]) {
        self.0.push(OrderedCase { name: name.into(), order: order.to_vec(), job: job.bytes() });
    }

    /// A text of the run that was worked out by hand.
    fn refused(&mut self, name: impl Into<String>, job: &Job, order: &[u8], refusal: &str) {
        let name = name.into();
        assert_eq!(Ordered::new(&job.bytes(), order).text(), Ok(format!("refused {refusal}\n")), "{name}");
        self.add(name, job, order);
    }

    /// An order that is refused for this job, which has so many keys.
    fn unlike(&mut self, name: &str, job: &Job, order: &[u8]) {
        assert_eq!(keys(order, job.keys()), None, "{name}");
        self.refused(name, job, order, "21 1 0");
    }

    /// The first job drawn that is done under this order by the published rule for pivots, as in `cases.txt`.
    fn done(&mut self, name: &str, order: &[u8], make: impl Fn(&mut Random) -> Job) {
        let mut random = Random::named(name);
        let drawn = (0..DRAWS).map(|_| make(&mut random));
        let is_done =
            |job: &Job| published(|| Ordered::new(&job.bytes(), order).text()).is_ok_and(|text| succeeds(&text));
        let job = drawn.into_iter().find(is_done).unwrap_or_else(|| panic!("{name}: not found in {DRAWS} draws"));
        self.add(name, &job, order);
    }
}

/// Every case, always the same.
pub fn all() -> Vec<OrderedCase> {
    let mut cases = Cases::default();
    pairs(&mut cases);
    no_variables(&mut cases);
    one_variable(&mut cases);
    three_variables(&mut cases);
    all_variables(&mut cases);
    reading(&mut cases);
    message_store(&mut cases);
    cleared_pivots(&mut cases);
    not_finite(&mut cases);
    marginals(&mut cases);
    every_order(&mut cases);
    forms(&mut cases);
    superseded(&mut cases);
    panel(&mut cases);
    cases.0
}

fn pairs(cases: &mut Cases) {
    cases.add("p4-rising", &three_priors(), &[0, 1]);
    cases.add("p4-falling", &three_priors(), &[1, 0]);
    let keyless = three_priors().unit_observation(&[], &[], &[7.0, -7.0]);
    cases.add("p9-an-observation-without-keys-last", &keyless, &[1, 0]);
    cases.add("p9-an-observation-without-keys-first", &keyless_first(), &[1, 0]);
}

/// The empty order is the only one.
fn no_variables(cases: &mut Cases) {
    cases.add("no-variables-empty-order", &Job::new(), &[]);
    let keyless = Job::new().unit_observation(&[], &[], &[1.0]);
    cases.add("no-variables-but-an-observation-empty-order", &keyless, &[]);
    cases.unlike("no-variables-key-0", &Job::new(), &[0]);
    cases.unlike("no-variables-key-255", &keyless, &[255]);
}

fn one_variable(cases: &mut Cases) {
    let one = Job::with(&[1]).prior(0, &[2.0], &[4.0]);
    cases.add("one-variable", &one, &[0]);
    for (name, order) in [
        ("one-variable-empty-order", &[][..]),
        ("one-variable-key-0-twice", &[0, 0]),
        ("one-variable-key-1", &[1]),
        ("one-variable-key-255", &[255]),
    ] {
        cases.unlike(name, &one, order);
    }
    cases.refused("p2-one-variable-no-factor", &Job::with(&[1]), &[0], "16 3 0");
}

/// A right order, here 2, 0, 1, and what else would leave its length, its sum or its keys as they are.
fn three_variables(cases: &mut Cases) {
    let chain = (0..2).fold(Job::with(&[1; 3]).prior(0, &[0.1], &[0.3]), |job, key| {
        job.unit_observation(&[key, key + 1], &[0.3, 0.7], &[key as f64])
    });
    cases.add("three-variables", &chain, &[2, 0, 1]);
    for (name, order) in [
        ("three-variables-the-first-two", &[2, 0][..]),
        ("three-variables-key-0-again", &[2, 0, 1, 0]),
        ("three-variables-and-key-3", &[2, 0, 1, 3]),
        ("three-variables-key-1-twice-first", &[1, 1, 2]),
        ("three-variables-key-3-for-0", &[2, 3, 1]),
        ("three-variables-key-255-for-1", &[2, 0, 255]),
        ("three-variables-key-32-for-0", &[2, 32, 1]),
        ("three-variables-two-keys-and-another-twice", &[3, 3]),
        ("three-variables-four-with-faults", &[0, 0, 255, 1]),
    ] {
        cases.unlike(name, &chain, order);
    }
    // A count in one byte would take 259 for 3.
    let far: Vec<u8> = [2, 0, 1].into_iter().cycle().take(259).collect();
    cases.unlike("three-variables-259-keys", &chain, &far);
}

/// As many keys as there may be.
fn all_variables(cases: &mut Cases) {
    let links =
        |r: &mut Random| graph(r, &[1; VARIABLES], &chain(VARIABLES), Style { most_rows: 1, priors: 70, scale: 0 });
    cases.done("32-variables-falling", &falling(VARIABLES), links);
    cases.done("32-variables-inside-out", &inside_out(VARIABLES), links);
    // Without factors the run would be refused, too.
    let bare = Job::with(&[1; VARIABLES]);
    let (right, other) = (both_ends(VARIABLES), |at: usize, key: u8| {
        let mut order = both_ends(VARIABLES);
        order[at] = key;
        order
    });
    cases.unlike("32-variables-31-keys", &bare, &right[1..]);
    cases.unlike("32-variables-33-keys", &bare, &[&right[..], &[31]].concat());
    cases.unlike("32-variables-300-keys", &bare, &[&right[..], &[0; 268]].concat());
    cases.unlike("32-variables-the-first-key-twice", &bare, &other(31, 0));
    cases.unlike("32-variables-key-32", &bare, &other(0, 32));
    cases.unlike("32-variables-key-255", &bare, &other(1, 255));
}

/// A refused record is told whatever the order.
fn reading(cases: &mut Cases) {
    let unknown = Job::with(&[1, 1]).raw(b"XX");
    for (name, order) in [("right", &[1, 0][..]), ("empty", &[]), ("twice", &[1, 1])] {
        cases.refused(format!("mark-unknown-order-{name}"), &unknown, order, "8 0 2");
    }
    let repeated = three_priors().unit_observation(&[1, 1], &[1.0, 1.0], &[0.0]);
    cases.refused("p8-order-short", &repeated, &[1], "3 0 6");
    let named_again = three_priors().superseding(4, |job| job.plain_prior(0, 1.0));
    cases.refused("no-such-factor-order-of-another", &named_again, &[0, 2], "19 0 6");
}

/// Falling keys need as much as rising ones: each pass becomes the other. Other orders need more or less.
fn message_store(cases: &mut Cases) {
    let (full, over) = (needing(MESSAGE_STORE, FULL), needing(MESSAGE_STORE + 1, ONE_OVER));
    let count = over.keys();
    assert_eq!(full.keys(), count);
    cases.add("message-store-full-falling", &full, &falling(count));
    cases.refused("message-store-one-over-rising", &over, &rising(count), "14 1 0");
    cases.refused("message-store-one-over-falling", &over, &falling(count), "14 1 0");
    cases.unlike("message-store-one-over-key-0-twice", &over, &[&rising(count - 1)[..], &[0]].concat());
    cases.add("message-store-one-over-reordered", &over, &needing_less(&over));
    cases.refused("message-store-full-reordered", &full, &needing_more(&full), "14 1 0");
}

/// The first order drawn under which a job needs no more than there is.
fn needing_less(job: &Job) -> Vec<u8> {
    reordered(job, |figure| figure <= MESSAGE_STORE)
}

fn needing_more(job: &Job) -> Vec<u8> {
    reordered(job, |figure| figure > MESSAGE_STORE)
}

fn reordered(job: &Job, wanted: impl Fn(usize) -> bool) -> Vec<u8> {
    let shapes = Shapes::of(&job::read(&job.bytes()).graph);
    let figure = |order: &[u8]| Plan::new(&shapes, &keys(order, job.keys()).unwrap()).figure();
    let mut random = Random::named("message-store-reordered");
    (0..DRAWS).map(|_| shuffled(&mut random, job.keys())).find(|order| wanted(figure(order))).expect("one such order")
}

/// No key of it stands at its place, neither from the front nor from the back: the steps' keys are 2, 0, 3, 1 and then 1, 3, 0, 2.
const CROSSED: [u8; 4] = [2, 0, 3, 1];

/// A key that nothing ties to another is cleared at the step after its own, so that a free one is refused there.
fn cleared_pivots(cases: &mut Cases) {
    for (key, refusal) in [(2, "15 1 0"), (0, "15 1 3"), (3, "15 1 1"), (1, "15 2 3")] {
        cases.refused(format!("free-key-{key}-of-4"), &free(4, &[key]), &CROSSED, refusal);
    }
    let zeros = |keys: [usize; 2], a: [f64; 2], key| free(4, &[key]).unit_observation(&keys, &a, &[1.0]);
    cases.refused("cleared-block-of-zeros-forward", &zeros([0, 2], [1.0, 0.0], 2), &CROSSED, "15 1 0");
    cases.refused("cleared-block-of-zeros-backward", &zeros([1, 3], [0.0, 1.0], 1), &CROSSED, "15 2 3");
    // Free keys in a chain: forward each is cleared with the link to the next, backward the last of them has none left.
    let link = |job: Job, keys: [usize; 2]| job.unit_observation(&keys, &[1.0, -1.0], &[1.0]);
    cases.refused("free-chain-of-2", &link(free(4, &[1, 3]), [1, 3]), &CROSSED, "15 2 0");
    cases.refused("free-chain-of-3", &link(link(free(4, &[0, 1, 3]), [0, 3]), [1, 3]), &CROSSED, "15 2 2");
}

/// A key with a mean far off, tied to the next one of the order by a narrow observation.
fn not_finite(cases: &mut Cases) {
    let (small, narrow) = (two_to(-300), two_to(-600));
    let far = |key: usize| free(4, &[key]).prior(key, &[two_to(1000)], &[1.0]);
    let once = |key, keys: [usize; 2], a: [f64; 2]| far(key).observation(&keys, &a, &[0.0], &[narrow]);
    cases.refused("message-not-finite-forward-z", &once(2, [0, 2], [1.0, small]), &CROSSED, "17 1 0");
    cases.refused("message-not-finite-backward-z", &once(1, [1, 3], [small, 1.0]), &CROSSED, "17 2 3");
    cases.refused("message-not-finite-later-forward", &once(0, [0, 3], [small, 1.0]), &CROSSED, "17 1 3");
    cases.refused("message-not-finite-later-backward", &once(3, [0, 3], [1.0, small]), &CROSSED, "17 2 0");
    let twice =
        |key, keys: [usize; 2], a: [f64; 4]| far(key).observation(&keys, &a, &[0.0; 2], &[narrow, 0.0, 0.0, narrow]);
    cases.refused("message-not-finite-forward-x", &twice(2, [0, 2], [1.0, 1.0, small, small]), &CROSSED, "17 1 0");
    cases.refused("message-not-finite-backward-x", &twice(1, [1, 3], [small, small, 1.0, 1.0]), &CROSSED, "17 2 3");
}

/// Marginals are made by rising key: of two that are refused the lower one is told, whichever comes first in the order.
fn marginals(cases: &mut Cases) {
    let tied = Job::with(&[1, 1]).unit_observation(&[0, 1], &[1.0, -1.0], &[1.0]);
    cases.refused("marginal-tied-but-free", &tied, &[1, 0], "16 3 0");
    let weak = |job: Job, key: usize| job.unit_observation(&[key], &[two_to(-520)], &[1.0]);
    cases.refused("marginal-not-finite-at-key-2", &weak(free(3, &[2]), 2), &[2, 0, 1], "17 3 2");
    let both = weak(weak(free(3, &[1, 2]), 2), 1);
    cases.refused("marginal-not-finite-at-keys-1-and-2", &both, &[2, 1, 0], "17 3 1");
    let mean = free(2, &[1]).observation(&[1], &[two_to(-300)], &[two_to(900)], &[1.0]);
    cases.refused("marginal-mean-not-finite-at-key-1", &mean, &[1, 0], "17 3 1");
    // Two columns are equal: the key in the middle of the order clears both at last.
    let columns = [1.0, 0.0, 0.0, 1.0, 0.0, 1.0];
    let alike = Job::with(&[1; 3]).unit_observation(&[0, 1, 2], &columns, &[1.0, 2.0]);
    cases.refused("cleared-block-in-the-last-of-key-0", &alike, &[2, 0, 1], "15 3 0");
}

/// Every order of three keys, with a chain of unequal sizes; and those in which key 1 isn't the middle, with one observation on all.
fn every_order(cases: &mut Cases) {
    let chained = |r: &mut Random| graph(r, &[2, 1, 3], &chain(3), Style { most_rows: 3, priors: 100, scale: 0 });
    let wide = |r: &mut Random| graph(r, &[1; 3], &[vec![0, 1, 2]], Style { most_rows: 3, priors: 50, scale: 0 });
    for order in [[0, 1, 2], [0, 2, 1], [1, 0, 2], [1, 2, 0], [2, 0, 1], [2, 1, 0]] {
        let name = order.map(|key: u8| key.to_string()).join("-");
        cases.done(&format!("chain-under-{name}"), &order, chained);
        if order[1] != 1 {
            cases.done(&format!("wide-under-{name}"), &order, wide);
        }
    }
}

fn forms(cases: &mut Cases) {
    let plain = Style { most_rows: 3, priors: 100, scale: 0 };
    cases.done("ring-5-both-ends", &both_ends(5), |r| graph(r, &[1; 5], &ring(5), plain));
    cases.done("star-5-first-inside-out", &inside_out(5), |r| graph(r, &[1; 5], &star(5, 0), plain));
    cases.done("ladder-3-both-ends", &both_ends(6), |r| graph(r, &[1; 6], &ladder(3), plain));
    // Key 4 is cleared while keys 2, 0 and 1, in the order's turn, wait for key 3.
    let between: Vec<Vec<usize>> = [3, 4].iter().flat_map(|&end| (0..3).map(move |key| vec![key, end])).collect();
    cases.done("many-keys-kept", &[2, 4, 0, 1, 3], |r| graph(r, &[1; 5], &between, plain));
    cases.done("apart", &[1, 2, 0], |r| graph(r, &[2, 1, 3], &[], plain));
    let sizes = [6, 6, 6, 6, 6, 2];
    let held = (0..sizes.len()).fold(Job::with(&sizes), |job, key| job.plain_prior(key, 1.0 + key as f64));
    cases.add("total-size-32-both-ends", &held, &both_ends(sizes.len()));
    let many = (0..FACTORS).fold(Job::with(&[1, 1]), |job, at| job.prior(at % 2, &[at as f64], &[1.0]));
    cases.add("factors-64-falling", &many, &[1, 0]);
    for at in 0..2 {
        let order = shuffled(&mut Random::named(&format!("order-{at}")), 6);
        cases.done(&format!("any-{at}"), &order, |r| {
            let (sizes, links) = (some_sizes(r, 6, 2), any_links(r, 6));
            graph(r, &sizes, &links, plain)
        });
    }
}

fn superseded(cases: &mut Cases) {
    let prior = |job: Job| job.prior(0, &[5.0], &[0.7]);
    let link = |job: Job| job.unit_observation(&[0, 1], &[-1.7, 1.1], &[4.0]);
    cases.add("superseded-prior", &three_priors().superseding(0, prior), &[1, 0]);
    cases.add("superseded-link", &three_priors().superseding(3, link), &[1, 0]);
    let keyless = three_priors().superseding(1, |job| job.unit_observation(&[], &[], &[7.0]));
    cases.add("superseded-by-an-observation-without-keys", &keyless, &[1, 0]);
    cases.refused(
        "superseded-leaves-a-key-free",
        &free(4, &[]).superseding(0, prior).superseding(3, prior),
        &CROSSED,
        "15 1 1",
    );
}

/// The panel of the examples: eight strips.
fn panel(cases: &mut Cases) {
    let panel = Job::new().raw(include_bytes!("../../../examples/panel.job"));
    let reshoot = Job::new().raw(include_bytes!("../../../examples/reshoot.job"));
    cases.add("panel-rising", &panel, &rising(8));
    cases.add("panel-falling", &panel, &falling(8));
    cases.add("panel-both-ends", &panel, &both_ends(8));
    cases.add("reshoot-falling", &reshoot, &falling(3));
}
