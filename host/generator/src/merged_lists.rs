//! Random programs with long merged lists. A body has a tree of qcases with a
//! recursive call in each branch. The calls of a tree mostly leave lists of one
//! length, but each removes its own qubits: from the front, from the end, by
//! turns from both, from the middle or anywhere.

use crate::numbers::MOST_REMOVALS;
use crate::programs::{removals, Place};
use crate::size_left::{by_blind_sizes, by_size_left};
use crate::tree::{choose, in_order, longer_than, not, qcase, Number, Program, Statement};
use crate::Random;

/// A random program with long merged lists. On n qubits, where n is 8 or more,
/// it is mostly accepted and mostly has a circuit.
pub fn program_of_merged_lists(random: &mut Random, n: u32) -> Program {
    let classes = random.pick(&CLASSES).unwrap_or(&[&[1]]);
    let percent = random.pick(&[0, 0, 50, 100]).unwrap_or(0);
    let mut writer = Writer {
        random,
        n: n.clamp(1, 32) as i16,
        classes,
    };
    let ranks = classes.iter().enumerate();
    let ranks = ranks.flat_map(|(rank, class)| class.iter().map(move |_| rank));
    let bodies = ranks.map(|rank| writer.body(rank)).collect();
    let main = writer.main();
    let made = by_size_left(random, Program { main, bodies }, percent);
    if random.chance(4) {
        return by_blind_sizes(random, made, 1);
    }
    made
}

/// Classes of procedures, those of one class calling each other.
type Classes = &'static [&'static [u8]];

/// The classes that a program has.
const CLASSES: [Classes; 6] = [
    &[&[1]],
    &[&[1]],
    &[&[1]],
    &[&[1, 2]],
    &[&[1], &[2]],
    &[&[1, 2], &[3]],
];

/// Which of the places there are a call removes.
#[derive(Clone, Copy)]
enum Manner {
    Front,
    End,
    Turns,
    Middle,
    Anywhere,
}

impl Manner {
    const ALL: [Manner; 5] = [
        Manner::Front,
        Manner::End,
        Manner::Turns,
        Manner::Middle,
        Manner::Anywhere,
    ];

    /// So many of the places, which stand from the front to the end.
    fn chosen(self, random: &mut Random, mut of: Vec<Place>, count: usize) -> Vec<Place> {
        match self {
            Manner::Front => {}
            Manner::End => of.reverse(),
            Manner::Turns => {
                let end: Vec<Place> = of.split_off(of.len() / 2);
                let turns = of.into_iter().zip(end.into_iter().rev());
                of = turns.flat_map(|(front, end)| [front, end]).collect();
            }
            Manner::Middle => {
                let before = of.len().saturating_sub(count) / 2;
                of.rotate_left(before);
            }
            Manner::Anywhere => random.shuffle(&mut of),
        }
        of.truncate(count);
        of
    }
}

/// What is known where a statement is written.
#[derive(Clone)]
struct Scope {
    /// The places there are, from the front to the end, all of them apart.
    places: Vec<Place>,
    /// Those of the qcases around.
    closed: Vec<Place>,
}

impl Scope {
    /// The scope of lists of at least this size. So many places are known from
    /// the front, the others from the end.
    fn of_size(at_least: i16, from_the_front: i16) -> Scope {
        let front = (1..=from_the_front).map(Place::Front);
        let end = (0..at_least - from_the_front).rev().map(Place::Back);
        Scope {
            places: front.chain(end).collect(),
            closed: Vec::new(),
        }
    }

    /// The places that are not closed.
    fn open(&self) -> Vec<Place> {
        let open = |place: &&Place| !self.closed.contains(place);
        self.places.iter().filter(open).copied().collect()
    }

    /// The scope inside a qcase.
    fn under(&self, place: Place) -> Scope {
        let mut inner = self.clone();
        inner.closed.push(place);
        inner
    }
}

/// What the branches of a tree have in common.
struct Tree {
    /// The class of the procedures called.
    class: &'static [u8],
    /// The qcases around each call.
    levels: usize,
    /// The removals of each call; where there is no such number, they vary.
    removed: Option<usize>,
    /// Whether the qcases are on the first places there are.
    on_the_first: bool,
}

/// Writes the statements of one program.
struct Writer<'r> {
    random: &'r mut Random,
    n: i16,
    classes: Classes,
}

impl Writer<'_> {
    /// A body of a procedure: a tree for lists of some size or more, now and
    /// then another one for longer lists, and a NOT for those that are shorter.
    fn body(&mut self, rank: usize) -> Statement {
        let procedures = self.classes.concat().len();
        let most_levels = if procedures == 1 { 5 } else { 4 };
        let trees = match procedures {
            1 | 2 if self.random.chance(30) => 2,
            _ => 1,
        };
        let mut body = match self.random.below(2) {
            0 => not(1),
            _ => Statement::Not(vec![], Number::SizePlus(0)),
        };
        let mut least = 1;
        for _ in 0..trees {
            let tree = self.kind_of_tree(rank, most_levels);
            least = self.size(tree.removed.unwrap_or(MOST_REMOVALS), least);
            let steps = self.steps(&tree, rank, least);
            body = choose(longer_than(least - 1), steps, body);
            least += 1;
        }
        body
    }

    /// What a tree of at most so many levels is like.
    fn kind_of_tree(&mut self, rank: usize, most_levels: usize) -> Tree {
        let levels = self.random.pick(&[2, 2, 3, 3, 4, 4, 5]).unwrap_or(2);
        let levels = levels.min(most_levels);
        let removed = levels + self.random.below(MOST_REMOVALS - levels + 1);
        Tree {
            class: self.classes[rank],
            levels,
            removed: self.random.chance(85).then_some(removed),
            on_the_first: self.random.chance(50),
        }
    }

    /// A size of lists from which so many qubits can be removed, no less than
    /// this one and mostly at most n.
    fn size(&mut self, removed: usize, least: i16) -> i16 {
        let least = least.max(removed as i16);
        let more = (self.n - least).max(0) / 2;
        self.random.between(least, least + more)
    }

    /// A tree with some statements before and behind it, for lists of at least
    /// this size.
    fn steps(&mut self, tree: &Tree, rank: usize, at_least: i16) -> Statement {
        let from_the_front = self.random.between(0, at_least);
        let scope = Scope::of_size(at_least, from_the_front);
        let mut steps = self.flips(&scope);
        steps.push(self.tree(tree, &scope));
        steps.extend(self.flips(&scope));
        if self.random.chance(40) {
            let inner = self.inner_chain(rank, &scope);
            let at = self.random.below(steps.len() + 1);
            steps.insert(at, inner);
        }
        in_order(steps)
    }

    /// A call to a procedure of the next class, where there is one.
    fn inner_chain(&mut self, rank: usize, scope: &Scope) -> Statement {
        let next = self.classes.get(rank + 1).and_then(|class| class.first());
        let removed = self.random.below(4);
        next.map_or(Statement::Skip, |&inner| self.call(inner, scope, removed))
    }

    /// Up to two NOTs, some of them in a branch of a qcase.
    fn flips(&mut self, scope: &Scope) -> Vec<Statement> {
        let count = self.random.below(3);
        let flips = (0..count).filter_map(|_| {
            let place = self.random.pick(&scope.open())?;
            let flip = Statement::Not(vec![], place.after(&[]));
            let other = self.random.pick(&scope.under(place).open())?;
            Some(match self.random.below(3) {
                0 => flip,
                1 => qcase(vec![], other.after(&[]), flip, Statement::Skip),
                _ => qcase(vec![], other.after(&[]), Statement::Skip, flip),
            })
        });
        flips.collect()
    }

    /// A tree of qcases with a call in each branch.
    fn tree(&mut self, tree: &Tree, scope: &Scope) -> Statement {
        let closed = scope.closed.len();
        if closed == tree.levels {
            let procedure = self.random.pick(tree.class).unwrap_or(1);
            let varied = closed + self.random.below(MOST_REMOVALS - closed + 1);
            return self.call(procedure, scope, tree.removed.unwrap_or(varied));
        }
        let open = scope.open();
        let place = match open.first() {
            Some(first) if tree.on_the_first => Some(*first),
            _ => self.random.pick(&open),
        };
        let Some(place) = place else {
            return Statement::Skip;
        };
        let inner = scope.under(place);
        let [zero, one] = [(); 2].map(|()| self.tree(tree, &inner));
        qcase(vec![], place.after(&[]), zero, one)
    }

    /// A call that removes the closed places and others, so many in all, in any
    /// order.
    fn call(&mut self, procedure: u8, scope: &Scope, removed: usize) -> Statement {
        let manner = self.random.pick(&Manner::ALL).unwrap_or(Manner::Front);
        let others = removed.saturating_sub(scope.closed.len());
        let mut places = manner.chosen(self.random, scope.open(), others);
        places.extend(&scope.closed);
        self.random.shuffle(&mut places);
        Statement::Call(removals(&places), procedure)
    }

    /// A main statement with one chain or several, one after the other or in
    /// the branches of a qcase, often with a part of the qubits alone.
    fn main(&mut self) -> Statement {
        let from_the_front = self.random.between(0, self.n);
        let scope = Scope::of_size(self.n, from_the_front);
        match self.random.below(10) {
            0..6 => self.start(&scope),
            6 | 7 => {
                let chains = 2 + self.random.below(3);
                in_order((0..chains).map(|_| self.start(&scope)).collect())
            }
            _ => match self.random.pick(&scope.places) {
                Some(place) => {
                    let inner = scope.under(place);
                    let [zero, one] = [(); 2].map(|()| self.start(&inner));
                    qcase(vec![], place.after(&[]), zero, one)
                }
                None => Statement::Skip,
            },
        }
    }

    /// The call that starts a chain.
    fn start(&mut self, scope: &Scope) -> Statement {
        let procedure = self.random.pick(&self.classes.concat()).unwrap_or(1);
        let removed = self.random.pick(&[0, 0, 0, 1, 2, 3]).unwrap_or(0);
        self.call(procedure, scope, removed)
    }
}
