//! Random programs.
//!
//! [`program`] builds its trees so that they are mostly accepted: it keeps
//! count of the least size the list can have, closes qcase qubits, lets calls
//! remove them, and hands the right to recur down one path of each sequence.
//! [`program_of_few_classes`] has more procedures that call each other, and
//! [`program_from_the_end`] longer lists, of which it knows every position from
//! the end. [`wild_program`] keeps the form of a table and nothing else.

use crate::tree::{choose, qcase, sequence, Condition, Number, Program, Statement};
use crate::Random;

/// How large and how careful the programs are.
#[derive(Clone, Copy, Debug)]
pub struct Shape {
    /// At most this many procedures, 0 to 16.
    pub procedures: usize,
    /// About this many statement records in each tree.
    pub records: usize,
    /// Percent of the statements with children that are a qcase.
    pub cases: usize,
    /// Percent of the leaves that may recur and do.
    pub recurs: usize,
    /// Percent of the touched positions and removals that are chosen blindly.
    pub slips: usize,
}

/// Programs for all words of a few qubits: their circuits are mostly short.
pub const SMALL: Shape = Shape {
    procedures: 3,
    records: 14,
    cases: 50,
    recurs: 65,
    slips: 1,
};

/// Programs whose recursive calls often share a body from different branches,
/// with different lists.
pub const MERGING: Shape = Shape {
    procedures: 2,
    records: 20,
    cases: 70,
    recurs: 75,
    slips: 0,
};

/// Programs with up to 16 procedures, mostly within 255 records.
pub const LARGE: Shape = Shape {
    procedures: 16,
    records: 9,
    cases: 50,
    recurs: 65,
    slips: 1,
};

/// Programs for [`program_of_few_classes`]: short ones of several procedures,
/// with calls in nearly every branch.
pub const MEETING: Shape = Shape {
    procedures: 4,
    records: 12,
    cases: 75,
    recurs: 90,
    slips: 0,
};

/// What a writer knows of the lists, and makes of them.
#[derive(Clone, Debug)]
struct Lists {
    /// The least size of main's list.
    main: i16,
    /// The least sizes that conditions ask for.
    sizes: Vec<i16>,
    /// The most removals of a NOT or qcase.
    removals: usize,
    /// Whether places are known from the front too; otherwise from the end
    /// alone, so that each position and removal is a size and a constant.
    from_the_front: bool,
}

/// A random program that is mostly accepted, for every number of qubits.
pub fn program(random: &mut Random, shape: &Shape) -> Program {
    program_on(random, shape, lists_of_any_size())
}

/// The same with two procedures at least, nearly all of them in one class: they
/// call each other from the branches of qcases, so that several of them often
/// have bodies of one list length in a chain.
pub fn program_of_few_classes(random: &mut Random, shape: &Shape) -> Program {
    let more = random.below(shape.procedures.saturating_sub(1));
    let ranks = (0..2 + more).map(|_| if random.chance(85) { 1 } else { 2 });
    let ranks = ranks.collect();
    program_of_ranks(random, shape, lists_of_any_size(), ranks)
}

/// Lists of which nothing is known but what conditions ask for.
fn lists_of_any_size() -> Lists {
    Lists {
        main: 1,
        sizes: vec![1, 2, 2, 3, 3, 3, 4, 4],
        removals: 3,
        from_the_front: true,
    }
}

/// A random program that is mostly accepted on n qubits. Its records have up
/// to eight removals, and each of its positions and removals is the size of the
/// whole list and a constant, but for some that are chosen blindly.
pub fn program_from_the_end(random: &mut Random, shape: &Shape, n: u32) -> Program {
    // With eight removals a list of this size still has some entries left.
    let longest = n.clamp(1, 12) as i16;
    let lists = Lists {
        main: longest,
        sizes: (1..=longest).collect(),
        removals: 8,
        from_the_front: false,
    };
    program_on(random, shape, lists)
}

/// A random program on such lists.
fn program_on(random: &mut Random, shape: &Shape, lists: Lists) -> Program {
    let procedures = 1 + random.below(shape.procedures);
    let procedures = procedures.min(shape.procedures);
    let classes = 1 + random.below(procedures);
    let ranks = (0..procedures).map(|_| 1 + random.below(classes));
    let ranks = ranks.collect();
    program_of_ranks(random, shape, lists, ranks)
}

/// A random program whose procedures have these ranks, of which none is 0.
fn program_of_ranks(
    random: &mut Random,
    shape: &Shape,
    lists: Lists,
    ranks: Vec<usize>,
) -> Program {
    let procedures = ranks.len();
    let mut writer = Writer {
        random,
        ranks: [vec![0], ranks].concat(),
        shape: *shape,
        lists,
    };
    let main = writer.tree(0, 1 + shape.records / 2);
    let bodies = (1..=procedures).map(|own| writer.tree(own, shape.records));
    Program {
        bodies: bodies.collect(),
        main,
    }
}

/// A position known from one end of a list.
#[derive(Clone, Copy, Debug, PartialEq, Eq)]
pub(crate) enum Place {
    /// This position, 1 or more.
    Front(i16),
    /// The size less this, 0 or more.
    Back(i16),
}

impl Place {
    /// Whether the two places differ in every list of at least this size.
    fn apart(self, other: Place, at_least: i16) -> bool {
        match (self, other) {
            (Place::Front(one), Place::Front(two)) | (Place::Back(one), Place::Back(two)) => {
                one != two
            }
            (Place::Front(front), Place::Back(back)) | (Place::Back(back), Place::Front(front)) => {
                front + back < at_least
            }
        }
    }

    /// Whether this place stands nearer the front than one apart from it.
    fn before(self, other: Place) -> bool {
        match (self, other) {
            (Place::Front(one), Place::Front(two)) => one < two,
            (Place::Back(one), Place::Back(two)) => one > two,
            (Place::Front(_), Place::Back(_)) => true,
            (Place::Back(_), Place::Front(_)) => false,
        }
    }

    /// The number that finds this place after others were removed.
    pub(crate) fn after(self, removed: &[Place]) -> Number {
        let nearer = removed.iter().filter(|other| other.before(self)).count() as i16;
        match self {
            Place::Front(front) => Number::Constant(front - nearer),
            Place::Back(back) => Number::SizePlus(-back - nearer),
        }
    }
}

/// The removals of these places, in this order.
pub(crate) fn removals(places: &[Place]) -> Vec<Number> {
    let in_turn = places.iter().enumerate();
    in_turn
        .map(|(turn, place)| place.after(&places[..turn]))
        .collect()
}

/// What is known where a statement is written.
#[derive(Clone, Debug)]
struct Scope {
    /// The procedure, or 0 for main.
    own: usize,
    /// The least size the whole list can have.
    at_least: i16,
    /// The places of the qcases around, pairwise apart.
    closed: Vec<Place>,
    /// Whether a recursive call may stand here.
    may_recur: bool,
    /// How many records deeper the tree may still go.
    depth: usize,
    /// Whether places are known from the front too.
    from_the_front: bool,
}

impl Scope {
    /// One record deeper.
    fn inner(&self) -> Scope {
        Scope {
            depth: self.depth.saturating_sub(1),
            ..self.clone()
        }
    }

    /// The places that are apart from all of these.
    fn places_apart_from(&self, taken: &[Place]) -> Vec<Place> {
        let front = (1..=self.at_least).filter(|_| self.from_the_front);
        let front = front.map(Place::Front);
        let back = (0..self.at_least).map(Place::Back);
        let free = |place: &Place| taken.iter().all(|other| place.apart(*other, self.at_least));
        front.chain(back).filter(free).collect()
    }
}

/// Writes the trees of one program.
struct Writer<'r> {
    random: &'r mut Random,
    /// Main's rank is 0. Calls go to procedures of the own rank or a higher
    /// one, never to a lower one.
    ranks: Vec<usize>,
    shape: Shape,
    lists: Lists,
}

impl Writer<'_> {
    /// A whole tree; many begin by asking for the size.
    fn tree(&mut self, own: usize, records: usize) -> Statement {
        let scope = Scope {
            own,
            at_least: if own == 0 { self.lists.main } else { 1 },
            closed: Vec::new(),
            may_recur: own > 0,
            depth: 24,
            from_the_front: self.lists.from_the_front,
        };
        if self.random.chance(60) {
            self.choice(&scope, records)
        } else {
            self.statement(&scope, records)
        }
    }

    /// A statement of about this many records.
    fn statement(&mut self, scope: &Scope, records: usize) -> Statement {
        if records < 3 || scope.depth == 0 || self.random.chance(8) {
            self.leaf(scope)
        } else if self.random.chance(self.shape.cases) {
            self.qcase(scope, records - 1)
        } else if self.random.chance(65) {
            self.sequence(scope, records - 1)
        } else {
            self.choice(scope, records - 1)
        }
    }

    /// A sequence; only one of its parts may recur.
    fn sequence(&mut self, scope: &Scope, records: usize) -> Statement {
        let share = 1 + self.random.below(records - 1);
        let first_recurs = self.random.chance(50);
        let mut first = scope.inner();
        first.may_recur &= first_recurs;
        let mut second = scope.inner();
        second.may_recur &= !first_recurs;
        sequence(
            self.statement(&first, share),
            self.statement(&second, records - share),
        )
    }

    /// An if. Its condition mostly asks for a least size, which the yes branch
    /// may then rely on, while the no branch seldom recurs. A negated condition
    /// has its branches exchanged.
    fn choice(&mut self, scope: &Scope, records: usize) -> Statement {
        let size = self.random.pick(&self.lists.sizes).unwrap_or(1);
        let mut yes = scope.inner();
        let condition = match self.random.below(100) {
            0..70 => {
                yes.at_least = yes.at_least.max(size);
                self.size_at_least(size)
            }
            70..85 => {
                yes.at_least = yes.at_least.max(size);
                Condition::Equal(Number::SizePlus(-size), Number::Constant(0))
            }
            _ => condition(self.random, 2),
        };
        let yes = self.statement(&yes, records * 3 / 4);
        let mut no = scope.inner();
        no.may_recur &= self.random.chance(30);
        let no = self.statement(&no, records / 4);
        if self.random.chance(20) {
            choose(Condition::Not(Box::new(condition)), no, yes)
        } else {
            choose(condition, yes, no)
        }
    }

    /// One of many ways to ask for a list of at least this size.
    fn size_at_least(&mut self, size: i16) -> Condition {
        let shift = self.random.between(-3, 3);
        let whole = Number::SizePlus(shift);
        let least = Number::Constant(size + shift);
        match self.random.below(5) {
            0 => Condition::AtLeast(whole, least),
            1 => Condition::Greater(whole, Number::Constant(size + shift - 1)),
            2 => Condition::Not(Box::new(Condition::Greater(least, whole))),
            3 => Condition::Or(
                Box::new(Condition::Equal(least, whole)),
                Box::new(Condition::Greater(whole, least)),
            ),
            _ => Condition::And(
                Box::new(Condition::AtLeast(whole, least)),
                Box::new(Condition::Greater(Number::SizePlus(0), Number::Constant(0))),
            ),
        }
    }

    /// A qcase on an open place, closed in both branches.
    fn qcase(&mut self, scope: &Scope, records: usize) -> Statement {
        let open = scope.places_apart_from(&scope.closed);
        let Some(place) = self.random.pick(&open) else {
            return self.leaf(scope);
        };
        let (removed, position) = self.touch(scope, place);
        let mut inner = scope.inner();
        inner.closed.push(place);
        let share = 1 + self.random.below(records - 1);
        qcase(
            removed,
            position,
            self.statement(&inner, share),
            self.statement(&inner, records - share),
        )
    }

    /// The removals and the position with which a NOT or qcase finds a place.
    fn touch(&mut self, scope: &Scope, place: Place) -> (Vec<Number>, Number) {
        if self.random.chance(self.shape.slips) {
            return (Vec::new(), number(self.random));
        }
        let mut others = vec![place];
        if self.random.chance(25) {
            let most = 1 + self.random.below(self.lists.removals);
            self.add_places(scope, &mut others, most);
        }
        let removed = &others[1..];
        (removals(removed), place.after(removed))
    }

    /// Adds up to this many places, each apart from all before it.
    fn add_places(&mut self, scope: &Scope, places: &mut Vec<Place>, most: usize) {
        for _ in 0..most {
            let free = scope.places_apart_from(places);
            places.extend(self.random.pick(&free));
        }
    }

    /// A statement without children: main mostly calls, and a place that may
    /// recur mostly does.
    fn leaf(&mut self, scope: &Scope) -> Statement {
        let rank = self.ranks[scope.own];
        let recurs = scope.may_recur && self.random.chance(self.shape.recurs);
        let falls = self.random.chance(if scope.own == 0 { 80 } else { 50 });
        let mut callable: Vec<usize> = (1..self.ranks.len()).collect();
        callable.retain(|&to| match self.ranks[to] {
            other if other == rank => recurs,
            other => other > rank && falls && !recurs,
        });
        match self.random.pick(&callable) {
            Some(procedure) => self.call(scope, procedure),
            None if self.random.chance(15) => Statement::Skip,
            None => self.not(scope),
        }
    }

    /// A NOT on an open place, or skip where none is known to be open.
    fn not(&mut self, scope: &Scope) -> Statement {
        let open = scope.places_apart_from(&scope.closed);
        match self.random.pick(&open) {
            Some(place) => {
                let (removed, position) = self.touch(scope, place);
                Statement::Not(removed, position)
            }
            None => Statement::Skip,
        }
    }

    /// A call that removes the closed places and some more, in any order. One
    /// to a procedure of the own rank has a removal at least.
    fn call(&mut self, scope: &Scope, procedure: usize) -> Statement {
        let mut places = scope.closed.clone();
        if self.random.chance(self.shape.slips) {
            places.clear();
        }
        let must_remove = self.ranks[procedure] == self.ranks[scope.own];
        let more = self.random.pick(&[0, 0, 0, 1, 1, 2, 5]).unwrap_or(0);
        let least = usize::from(must_remove && places.is_empty());
        self.add_places(scope, &mut places, more.max(least));
        self.random.shuffle(&mut places);
        let mut removed = removals(&places);
        if self.random.chance(3) {
            removed.push(number(self.random));
        }
        removed.truncate(8);
        Statement::Call(removed, procedure as u8)
    }
}

/// A number that nobody vouches for.
fn number(random: &mut Random) -> Number {
    match random.below(20) {
        0 => Number::Constant(i16::MIN),
        1 => Number::SizePlus(i16::MAX),
        2..12 => Number::Constant(random.between(-1, 5)),
        _ => Number::SizePlus(random.between(-5, 1)),
    }
}

/// A condition of any kind, at most `depth` records above its comparisons.
fn condition(random: &mut Random, depth: usize) -> Condition {
    let kinds = if depth == 0 { 3 } else { 6 };
    let kind = random.below(kinds);
    if kind < 3 {
        let (a, b) = (number(random), number(random));
        return match kind {
            0 => Condition::Greater(a, b),
            1 => Condition::AtLeast(a, b),
            _ => Condition::Equal(a, b),
        };
    }
    let first = Box::new(condition(random, depth - 1));
    match kind {
        3 => Condition::Not(first),
        4 => Condition::And(first, Box::new(condition(random, depth - 1))),
        _ => Condition::Or(first, Box::new(condition(random, depth - 1))),
    }
}

/// A random program that keeps the form of a table and nothing else: its
/// calls go anywhere, with 0 to 8 removals, and its positions are blind.
pub fn wild_program(random: &mut Random, shape: &Shape) -> Program {
    let procedures = random.below(shape.procedures + 1);
    let main = wild_statement(random, procedures, shape.records, 24);
    let bodies = (0..procedures).map(|_| wild_statement(random, procedures, shape.records, 24));
    Program {
        bodies: bodies.collect(),
        main,
    }
}

/// A wild statement of about this many records.
fn wild_statement(
    random: &mut Random,
    procedures: usize,
    records: usize,
    depth: usize,
) -> Statement {
    if records < 3 || depth == 0 || random.chance(10) {
        return wild_leaf(random, procedures);
    }
    let share = 1 + random.below(records - 2);
    let first = wild_statement(random, procedures, share, depth - 1);
    let second = wild_statement(random, procedures, records - 1 - share, depth - 1);
    match random.below(4) {
        0 => sequence(first, second),
        1 => choose(condition(random, 2), first, second),
        _ => qcase(wild_removals(random), number(random), first, second),
    }
}

/// A wild statement without children.
fn wild_leaf(random: &mut Random, procedures: usize) -> Statement {
    match random.below(4) {
        0 => Statement::Skip,
        1 => Statement::Not(wild_removals(random), number(random)),
        _ if procedures == 0 => Statement::Skip,
        _ => Statement::Call(wild_removals(random), 1 + random.below(procedures) as u8),
    }
}

/// No removals, or 1 to 8 of them, mostly few.
fn wild_removals(random: &mut Random) -> Vec<Number> {
    let count = match random.below(10) {
        0 => random.below(9),
        _ => random.below(3),
    };
    (0..count).map(|_| number(random)).collect()
}
