//! Schedule, gathering and store figure, written from document 01 and made without arithmetic. The original's passes are
//! compared with it wherever they succeed.
use crate::gaussian::Factor;
use crate::graph::Graph;
use crate::solver::Slot;

/// What the plan needs to know of a factor or a message.
pub struct Shape {
    pub keys: Vec<usize>,
    pub rows: usize,
    pub is_prior: bool,
}

/// What the plan needs to know of a graph.
pub struct Shapes {
    pub sizes: Vec<usize>,
    pub factors: Vec<Shape>,
    /// The numbers of the live factors, rising: the originals of a pass and of the gathering.
    pub live: Vec<usize>,
}

/// One elimination before any arithmetic.
#[derive(Debug, Clone, PartialEq, Eq)]
pub struct Elimination {
    pub kept: Vec<usize>,
    pub cleared: Vec<usize>,
    /// The kept dimension.
    pub dimension: usize,
    /// Rows that come in, and rows of the result.
    pub given: usize,
    pub rows: usize,
    /// In the domain of equality with the original.
    pub in_domain: bool,
}

pub struct Message {
    pub step: usize,
    pub key: usize,
    pub content: Vec<Slot>,
    pub work: Elimination,
}

/// Behind one key: what it gathers, in that order, the leaves, and the last elimination.
pub struct Gathered {
    pub key: usize,
    pub forward: Vec<usize>,
    pub backward: Vec<usize>,
    pub originals: Vec<usize>,
    pub leaves: Vec<usize>,
    pub work: Elimination,
}

pub struct Plan {
    pub forward: Vec<Message>,
    pub backward: Vec<Message>,
    pub gathered: Vec<Gathered>,
}

impl Shapes {
    pub fn of(graph: &Graph) -> Shapes {
        let sizes = graph.all.keys().map(|key| graph.all.size(key).unwrap()).collect();
        let factors = graph.all.factors().iter().map(Shape::of).collect();
        Shapes { sizes, factors, live: graph.live_numbers() }
    }

    fn dimension(&self, keys: &[usize]) -> usize {
        keys.iter().map(|&key| self.sizes[key]).sum()
    }
}

impl Shape {
    fn of(factor: &Factor<f64>) -> Shape {
        match factor {
            Factor::Prior(p) => Shape { keys: p.keys().to_vec(), rows: p.dim_x(), is_prior: true },
            Factor::Likelihood(l) => Shape { keys: l.keys().to_vec(), rows: l.dim_y(), is_prior: false },
        }
    }

    fn touches(&self, keys: &[usize]) -> bool {
        self.keys.iter().any(|key| keys.contains(key))
    }
}

impl Elimination {
    pub fn new(shapes: &Shapes, met: &[&Shape], kept: Vec<usize>, cleared: Vec<usize>) -> Elimination {
        let dimension = shapes.dimension(&kept);
        // A prior on a cleared key brings no rows.
        let brings_rows = |shape: &&&Shape| !shape.is_prior || shape.touches(&kept);
        let given = met.iter().filter(brings_rows).map(|shape| shape.rows).sum();
        let in_domain = given > dimension || met.iter().all(|shape| is_plain(shapes, shape, &cleared));
        Elimination { kept, cleared, dimension, given, rows: dimension.min(given), in_domain }
    }

    /// The z branch runs where the rows are at most the kept dimension.
    pub fn in_z(&self) -> bool {
        self.given <= self.dimension
    }

    /// Numbers that the result takes: A, xi and W.
    pub fn stored(&self) -> usize {
        self.rows * self.dimension + self.rows + self.rows * self.rows
    }

    fn result(&self) -> Shape {
        Shape { keys: self.kept.clone(), rows: self.rows, is_prior: false }
    }
}

/// No two cleared keys in the factor, unless all of them have size 1: else the original's z branch goes astray.
fn is_plain(shapes: &Shapes, shape: &Shape, cleared: &[usize]) -> bool {
    let met: Vec<usize> = shape.keys.iter().copied().filter(|key| cleared.contains(key)).collect();
    met.len() < 2 || met.iter().all(|&key| shapes.sizes[key] == 1)
}

impl Plan {
    /// The plan for keys taken in this order.
    pub fn new(shapes: &Shapes, order: &[usize]) -> Plan {
        let reversed: Vec<usize> = order.iter().rev().copied().collect();
        let (forward, backward) = (Pass::along(shapes, order), Pass::along(shapes, &reversed));
        let place = |key| order.iter().position(|&k| k == key).unwrap();
        let keys = 0..order.len();
        let gathered = keys.map(|key| gather(shapes, &forward, &backward, key, place(key))).collect();
        Plan { forward: forward.messages, backward: backward.messages, gathered }
    }

    /// The message store that the run needs.
    pub fn figure(&self) -> usize {
        self.forward.iter().chain(&self.backward).map(|message| message.work.stored()).sum()
    }

    /// The marginal store that it needs: mean and covariance of each key.
    pub fn marginals(&self) -> usize {
        self.gathered.iter().map(|gathered| gathered.work.dimension * (1 + gathered.work.dimension)).sum()
    }
}

/// A pass between two steps: active keys, active slots, and the messages so far with their shapes.
struct Pass<'a> {
    shapes: &'a Shapes,
    keys: Vec<usize>,
    slots: Vec<Slot>,
    messages: Vec<Message>,
    results: Vec<Shape>,
}

impl<'a> Pass<'a> {
    fn along(shapes: &'a Shapes, order: &[usize]) -> Pass<'a> {
        let slots = shapes.live.iter().copied().map(Slot::Original).collect();
        let mut pass = Pass { shapes, keys: Vec::new(), slots, messages: Vec::new(), results: Vec::new() };
        for (step, &key) in order.iter().enumerate() {
            pass.keys.push(key);
            let cleared = pass.cleared_at(key);
            if !cleared.is_empty() {
                pass.close(step, key, cleared);
            }
        }
        pass
    }

    fn shape(&self, slot: Slot) -> &Shape {
        match slot {
            Slot::Original(i) => &self.shapes.factors[i],
            Slot::Closed(j) => &self.results[j],
        }
    }

    /// Active keys other than the step's that no slot ties to an inactive key.
    fn cleared_at(&self, key: usize) -> Vec<usize> {
        let mut coupled = Vec::new();
        for &slot in &self.slots {
            let keys = &self.shape(slot).keys;
            if keys.iter().any(|k| !self.keys.contains(k)) {
                coupled.extend(keys);
            }
        }
        sorted(self.keys.iter().copied().filter(|k| *k != key && !coupled.contains(k)).collect())
    }

    /// The slots that touch a cleared key go into a message, which joins the active ones.
    fn close(&mut self, step: usize, key: usize, cleared: Vec<usize>) {
        self.keys.retain(|k| !cleared.contains(k));
        let content = self.take_slots(&cleared);
        let met: Vec<&Shape> = content.iter().map(|&slot| self.shape(slot)).collect();
        let touched = met.iter().flat_map(|shape| &shape.keys).copied();
        let kept = sorted(touched.filter(|k| self.keys.contains(k)).collect());
        let work = Elimination::new(self.shapes, &met, kept, cleared);
        self.slots.push(Slot::Closed(self.messages.len()));
        self.results.push(work.result());
        self.messages.push(Message { step, key, content, work });
    }

    /// The walk from place 0: the last slot moves into the place of one that goes, and is looked at again.
    fn take_slots(&mut self, cleared: &[usize]) -> Vec<Slot> {
        let mut content = Vec::new();
        let mut place = 0;
        while place < self.slots.len() {
            if self.shape(self.slots[place]).touches(cleared) {
                content.push(self.slots[place]);
                let last = self.slots.len() - 1;
                self.slots[place] = self.slots[last];
                self.slots.truncate(last);
            } else {
                place += 1;
            }
        }
        content
    }

    /// Messages of step at most this that no such message contains, rising.
    fn uncontained(&self, step: usize) -> Vec<usize> {
        let due: Vec<usize> = (0..self.messages.len()).filter(|&j| self.messages[j].step <= step).collect();
        let contained = |j: usize| due.iter().any(|&i| self.messages[i].content.contains(&Slot::Closed(j)));
        due.iter().copied().filter(|&j| !contained(j)).collect()
    }

    /// The originals under a message: the top of the stack is taken, its originals listed, its messages pushed.
    fn leaves_under(&self, root: usize) -> Vec<usize> {
        let (mut leaves, mut stack) = (Vec::new(), vec![root]);
        while let Some(top) = stack.pop() {
            for slot in &self.messages[top].content {
                match *slot {
                    Slot::Original(i) => leaves.push(i),
                    Slot::Closed(j) => stack.push(j),
                }
            }
        }
        leaves
    }
}

/// What the key at this place of the order gathers.
fn gather(shapes: &Shapes, forward: &Pass, backward: &Pass, key: usize, place: usize) -> Gathered {
    let ahead = forward.uncontained(place);
    let behind = backward.uncontained(shapes.sizes.len() - 1 - place);
    let mut leaves: Vec<usize> = ahead.iter().flat_map(|&j| forward.leaves_under(j)).collect();
    leaves.extend(behind.iter().flat_map(|&j| backward.leaves_under(j)));
    let originals: Vec<usize> = shapes.live.iter().copied().filter(|i| !leaves.contains(i)).collect();
    leaves.extend(&originals);
    let mut met: Vec<&Shape> = ahead.iter().map(|&j| &forward.results[j]).collect();
    met.extend(behind.iter().map(|&j| &backward.results[j]));
    met.extend(originals.iter().map(|&i| &shapes.factors[i]));
    let cleared = sorted(met.iter().flat_map(|shape| &shape.keys).copied().filter(|&k| k != key).collect());
    let work = Elimination::new(shapes, &met, vec![key], cleared);
    Gathered { key, forward: ahead, backward: behind, originals, leaves, work }
}

fn sorted(mut keys: Vec<usize>) -> Vec<usize> {
    keys.sort();
    keys.dedup();
    keys
}
