//! The program of a text, by recursive descent along the grammar of
//! `docs/TEXT.md`. Each rule stands above the function that reads it.

use super::print::list;
use super::tokens::{tokens, Token};
use super::{Error, Place};
use crate::tree::{
    Comparison, Condition, Number, Program, Qubit, Statement, MOST_PROCEDURES, MOST_REMOVALS,
};

/// At most so many statements, conditions and groups in a text, so that no
/// text makes a tree too deep to walk. The text of a table has at most three
/// for each of its 255 records.
const MOST_PARTS: usize = 1_000;

/// The program of a text.
///
/// # Errors
/// The first thing that the grammar does not allow, or that no table can hold.
pub fn parse(text: &str) -> Result<Program, Error> {
    let tokens = tokens(text)?;
    let mut parser = Parser {
        names: names(&tokens)?,
        tokens: &tokens,
        at: 0,
        parts: 0,
        open_else: false,
    };
    parser.program()
}

/// The names of the procedures, in their order: calls may stand before what
/// they call.
fn names<'a>(tokens: &[(Place, Token<'a>)]) -> Result<Vec<&'a str>, Error> {
    let mut names = Vec::new();
    for pair in tokens.windows(2) {
        let [(_, Token::Mark("decl")), (place, Token::Name(name))] = *pair else {
            continue;
        };
        if names.contains(&name) {
            return Err(wrong(place, format!("a second procedure `{name}`")));
        }
        if names.len() == MOST_PROCEDURES {
            let message = format!("more than {MOST_PROCEDURES} procedures");
            return Err(wrong(place, message));
        }
        names.push(name);
    }
    Ok(names)
}

/// An error.
fn wrong(place: Place, message: impl Into<String>) -> Error {
    Error {
        place,
        message: message.into(),
    }
}

/// A position with its place in the text.
type Placed = (Place, Number);

/// What makes a number of a constant.
type Base = fn(i16) -> Number;

/// The tokens and where among them the parser stands.
struct Parser<'a> {
    tokens: &'a [(Place, Token<'a>)],
    at: usize,
    names: Vec<&'a str>,
    /// Statements, conditions and groups so far.
    parts: usize,
    /// Whether the last if had the branch of its else without braces.
    open_else: bool,
}

impl<'a> Parser<'a> {
    /// The next token.
    fn next(&self) -> Token<'a> {
        self.tokens[self.at].1
    }

    /// Where the next token stands.
    fn place(&self) -> Place {
        self.tokens[self.at].0
    }

    /// Passes the next token; the end stays.
    fn pass(&mut self) {
        if self.next() != Token::End {
            self.at += 1;
        }
    }

    /// Passes this mark where it is the next token, and tells whether it is.
    fn passes(&mut self, mark: &str) -> bool {
        let here = self.next() == Token::Mark(mark);
        if here {
            self.pass();
        }
        here
    }

    /// Passes this mark, or says that it was expected.
    fn expect(&mut self, mark: &str) -> Result<(), Error> {
        self.expect_as(mark, &format!("`{mark}`"))
    }

    /// Passes the mark that ends a row of statements.
    fn expect_behind_row(&mut self, mark: &str) -> Result<(), Error> {
        self.expect_as(mark, &format!("a statement or `{mark}`"))
    }

    /// Passes this mark, or says that something was expected.
    fn expect_as(&mut self, mark: &str, expected: &str) -> Result<(), Error> {
        if self.passes(mark) {
            return Ok(());
        }
        Err(self.expected(expected))
    }

    /// The error that something else was expected here.
    fn expected(&self, expected: &str) -> Error {
        let message = format!("expected {expected}, found {}", self.next());
        wrong(self.place(), message)
    }

    /// Counts a statement, condition or group.
    fn count(&mut self) -> Result<(), Error> {
        self.parts += 1;
        if self.parts > MOST_PARTS {
            let message = format!("more than {MOST_PARTS} statements, conditions and groups");
            return Err(wrong(self.place(), message));
        }
        Ok(())
    }

    /// `program = { declaration [ "," ] } "::" row`
    fn program(&mut self) -> Result<Program, Error> {
        let mut bodies = Vec::new();
        while self.passes("decl") {
            bodies.push(self.declaration()?);
            self.passes(",");
        }
        self.expect_as("::", "`decl` or `::`")?;
        let main = self.row()?;
        if self.next() != Token::End {
            return Err(self.expected("a statement or the end of the text"));
        }
        Ok(Program { main, bodies })
    }

    /// `declaration = "decl" name "(" "q" ")" "{" row "}"`, behind the `decl`.
    fn declaration(&mut self) -> Result<Statement, Error> {
        self.name()?;
        self.expect("(")?;
        self.expect("q")?;
        self.expect(")")?;
        self.expect("{")?;
        let body = self.row()?;
        self.expect_behind_row("}")?;
        Ok(body)
    }

    /// A name.
    fn name(&mut self) -> Result<&'a str, Error> {
        let Token::Name(name) = self.next() else {
            return Err(self.expected("the name of a procedure"));
        };
        self.pass();
        Ok(name)
    }

    /// `row = statement { statement }`: a sequence that leans right.
    fn row(&mut self) -> Result<Statement, Error> {
        let mut last = self.statement()?;
        let mut before = Vec::new();
        while self.at_statement() {
            if self.open_else && matches!(last, Statement::If(..)) {
                let message = "a statement behind an `if` whose `else` has no braces: \
                               put the branch, or the whole `if`, into braces";
                return Err(wrong(self.place(), message));
            }
            before.push(last);
            last = self.statement()?;
        }
        let lean = |rest, first| Statement::Sequence(Box::new(first), Box::new(rest));
        Ok(before.into_iter().rev().fold(last, lean))
    }

    /// Whether a statement starts here.
    fn at_statement(&self) -> bool {
        let starts = ["skip", "call", "if", "qcase", "{", "q", "nil", "("];
        starts.iter().any(|start| self.next() == Token::Mark(start))
    }

    /// `statement = "skip" ";" | not | call | if | qcase | group`
    fn statement(&mut self) -> Result<Statement, Error> {
        self.count()?;
        match self.next() {
            Token::Mark("skip") => {
                self.pass();
                self.expect(";")?;
                Ok(Statement::Skip)
            }
            Token::Mark("call") => self.call(),
            Token::Mark("if") => self.choice(),
            Token::Mark("qcase") => self.qcase(),
            Token::Mark("{") => self.group(),
            Token::Mark("q" | "nil" | "(") => self.not(),
            _ => Err(self.expected("a statement")),
        }
    }

    /// `group = "{" row "}"`
    fn group(&mut self) -> Result<Statement, Error> {
        self.expect("{")?;
        let row = self.row()?;
        self.expect_behind_row("}")?;
        self.open_else = false;
        Ok(row)
    }

    /// `call = "call" name "(" list ")" ";"`
    fn call(&mut self) -> Result<Statement, Error> {
        self.expect("call")?;
        let place = self.place();
        let name = self.name()?;
        let mut numbered = (1..).zip(&self.names);
        let Some((procedure, _)) = numbered.find(|(_, known)| **known == name) else {
            return Err(wrong(place, format!("no procedure `{name}` is declared")));
        };
        self.expect("(")?;
        let removals = self.list()?;
        self.expect(")")?;
        self.expect(";")?;
        Ok(Statement::Call {
            procedure,
            removals,
        })
    }

    /// `if = "if" condition "then" row "else" statement`
    fn choice(&mut self) -> Result<Statement, Error> {
        self.expect("if")?;
        let condition = self.condition()?;
        self.expect("then")?;
        let yes = self.row()?;
        self.expect_behind_row("else")?;
        let open = self.next() != Token::Mark("{");
        let no = self.statement()?;
        self.open_else = open;
        Ok(Statement::If(condition, Box::new(yes), Box::new(no)))
    }

    /// `qcase = "qcase" qubits "of" "{" { branch [ "," ] } "}"`
    fn qcase(&mut self) -> Result<Statement, Error> {
        self.expect("qcase")?;
        let (removals, positions) = self.qubits()?;
        self.expect("of")?;
        self.expect("{")?;
        let statement = self.branches(&removals, &positions, "")?;
        self.expect_behind_row("}")?;
        Ok(statement)
    }

    /// The branches whose labels begin so: a qcase on the first of the
    /// positions left, or, where none is left, the branch itself.
    fn branches(
        &mut self,
        removals: &[Number],
        positions: &[Placed],
        label: &str,
    ) -> Result<Statement, Error> {
        let Some((&(_, position), rest)) = positions.split_first() else {
            return self.branch(label);
        };
        self.count()?;
        let zero = self.branches(removals, rest, &format!("{label}0"))?;
        let one = self.branches(removals, rest, &format!("{label}1"))?;
        let removals = removals.to_vec();
        let qubit = Qubit { removals, position };
        Ok(Statement::Qcase(qubit, Box::new(zero), Box::new(one)))
    }

    /// `branch = label "->" row`
    fn branch(&mut self, label: &str) -> Result<Statement, Error> {
        if self.next() != Token::Digits(label) {
            let behind_row = if label.contains('1') {
                "a statement or "
            } else {
                ""
            };
            return Err(self.expected(&format!("{behind_row}branch `{label}`")));
        }
        self.pass();
        self.expect("->")?;
        let row = self.row()?;
        self.passes(",");
        Ok(row)
    }

    /// `not = qubits "*=" "NOT" ";"`, with one position.
    fn not(&mut self) -> Result<Statement, Error> {
        let (removals, positions) = self.qubits()?;
        let [(_, position)] = positions[..] else {
            return Err(wrong(positions[1].0, "a second position for one NOT"));
        };
        self.expect("*=")?;
        self.expect("NOT")?;
        self.expect(";")?;
        Ok(Statement::Not(Qubit { removals, position }))
    }

    /// `qubits = ( list | "(" list ")" ) positions`: removals and positions.
    fn qubits(&mut self) -> Result<(Vec<Number>, Vec<Placed>), Error> {
        let removals = if self.passes("(") {
            let removals = self.list()?;
            self.expect(")")?;
            removals
        } else {
            self.list()?
        };
        let positions = self.positions(&removals)?;
        Ok((removals, positions))
    }

    /// `list = ( "q" | "nil" ) { "-" positions }`: its removals, one after the
    /// other.
    fn list(&mut self) -> Result<Vec<Number>, Error> {
        let mut removals = self.list_start("`q` or `nil`")?;
        while self.passes("-") {
            self.remove(&mut removals)?;
        }
        Ok(removals)
    }

    /// The `q` or `nil` that a list starts with; nil is a removal.
    fn list_start(&mut self, expected: &str) -> Result<Vec<Number>, Error> {
        if self.passes("nil") {
            return Ok(vec![Number::Constant(0)]);
        }
        self.expect_as("q", expected)?;
        Ok(Vec::new())
    }

    /// The positions of one bracket, as removals behind those so far.
    fn remove(&mut self, removals: &mut Vec<Number>) -> Result<(), Error> {
        let positions = self.positions(removals)?;
        for (turn, &position) in positions.iter().enumerate() {
            if removals.len() == MOST_REMOVALS {
                let message = format!("more than {MOST_REMOVALS} removals");
                return Err(wrong(position.0, message));
            }
            removals.push(after(position, &positions[..turn])?);
        }
        Ok(())
    }

    /// `positions = "[" position { "," position } "]"`, in a list with these
    /// removals.
    fn positions(&mut self, so_far: &[Number]) -> Result<Vec<Placed>, Error> {
        self.expect("[")?;
        let mut positions = vec![self.position(so_far)?];
        while self.passes(",") {
            positions.push(self.position(so_far)?);
        }
        self.expect("]")?;
        Ok(positions)
    }

    /// `position = number | "-" natural`. The last position of a list with so
    /// many removals is the whole size less those: where they emptied the list
    /// instead, no position is inside.
    fn position(&mut self, so_far: &[Number]) -> Result<Placed, Error> {
        let place = self.place();
        if !self.passes("-") {
            return Ok((place, self.number(so_far)?));
        }
        let from_end = self.natural()?;
        if from_end == 0 {
            return Err(wrong(place, "positions from the end start with `-1`"));
        }
        let constant = constant(place, 1 - from_end - so_far.len() as i64)?;
        Ok((place, Number::SizePlus(constant)))
    }

    /// `number = ( natural | size ) { ( "+" | "-" ) natural }`, behind these
    /// removals; a comparison stands behind none.
    fn number(&mut self, so_far: &[Number]) -> Result<Number, Error> {
        let place = self.place();
        let (base, mut sum): (Base, i64) = match self.next() {
            Token::Mark("|") => (self.size(so_far)?, 0),
            _ => (Number::Constant, self.natural()?),
        };
        loop {
            if self.passes("+") {
                sum += self.natural()?;
            } else if self.passes("-") {
                sum -= self.natural()?;
            } else {
                break;
            }
        }
        Ok(base(constant(place, sum)?))
    }

    /// `size = "|" ( list | "s" ) "|"`, behind these removals: of the whole list,
    /// or of the list so far, which is what they left.
    fn size(&mut self, so_far: &[Number]) -> Result<Base, Error> {
        let place = self.place();
        self.expect("|")?;
        let base = if self.next() == Token::Name("s") {
            self.pass();
            Number::LeftPlus
        } else {
            self.base_of_list(place, so_far)?
        };
        self.expect("|")?;
        Ok(base)
    }

    /// The base of a size whose list stands between the bars. Such a list is read
    /// until it has as many removals as the list so far, so that a size inside it
    /// stands behind fewer, and no text makes bars too deep to walk.
    fn base_of_list(&mut self, place: Place, so_far: &[Number]) -> Result<Base, Error> {
        let mut removals = self.list_start("`q`, `nil` or `s`")?;
        while removals.len() < so_far.len() && self.passes("-") {
            self.remove(&mut removals)?;
        }
        if self.next() == Token::Mark("-") {
            return Err(wrong_size(place, so_far));
        }
        match removals {
            whole if whole.is_empty() => Ok(Number::SizePlus),
            left if left == so_far => Ok(Number::LeftPlus),
            _ => Err(wrong_size(place, so_far)),
        }
    }

    /// `natural`; one beyond 32 bits is as good as the last within them, since
    /// both are beyond 16.
    fn natural(&mut self) -> Result<i64, Error> {
        let Token::Digits(digits) = self.next() else {
            return Err(self.expected("a number"));
        };
        self.pass();
        Ok(digits.parse::<u32>().unwrap_or(u32::MAX).into())
    }

    /// `condition = conjunction [ "or" condition ]`
    fn condition(&mut self) -> Result<Condition, Error> {
        let first = self.conjunction()?;
        if !self.passes("or") {
            return Ok(first);
        }
        let second = self.condition()?;
        Ok(Condition::Or(Box::new(first), Box::new(second)))
    }

    /// `conjunction = factor [ "and" conjunction ]`
    fn conjunction(&mut self) -> Result<Condition, Error> {
        let first = self.factor()?;
        if !self.passes("and") {
            return Ok(first);
        }
        let second = self.conjunction()?;
        Ok(Condition::And(Box::new(first), Box::new(second)))
    }

    /// `factor = "not" factor | "(" condition ")" | comparison`
    fn factor(&mut self) -> Result<Condition, Error> {
        self.count()?;
        if self.passes("not") {
            return Ok(Condition::Not(Box::new(self.factor()?)));
        }
        if self.passes("(") {
            let condition = self.condition()?;
            self.expect(")")?;
            return Ok(condition);
        }
        self.comparison()
    }

    /// `comparison = number ( ">" | ">=" | "=" ) number`
    fn comparison(&mut self) -> Result<Condition, Error> {
        let a = self.number(&[])?;
        let comparison = match self.next() {
            Token::Mark(">") => Comparison::Greater,
            Token::Mark(">=") => Comparison::AtLeast,
            Token::Mark("=") => Comparison::Equal,
            _ => return Err(self.expected("`>`, `>=` or `=`")),
        };
        self.pass();
        Ok(Condition::Compare(comparison, a, self.number(&[])?))
    }
}

/// A constant of a table.
fn constant(place: Place, value: i64) -> Result<i16, Error> {
    i16::try_from(value).map_err(|_| wrong(place, "a constant outside -32768 to 32767"))
}

/// The error of a size that is neither the whole list's nor that of the list so
/// far, which these removals left.
fn wrong_size(place: Place, so_far: &[Number]) -> Error {
    if so_far.is_empty() {
        let message = "the size between bars must be that of `q`, from which nothing is \
                       removed so far; a smaller one is a difference, like `|q| - 1`";
        return wrong(place, message);
    }
    let left = list(so_far);
    let message = format!(
        "the size between bars must be that of `q`, or of the list so far, here `{left}`; \
         write `|s|` for the second"
    );
    wrong(place, message)
}

/// The number that finds a position once the positions before it in its
/// bracket are removed: less by one for each of them that is lower. The size
/// left is less by one for each of them, which its constant makes good.
fn after(position: Placed, earlier: &[Placed]) -> Result<Number, Error> {
    let mut lower = 0;
    for &(_, other) in earlier {
        lower += i64::from(is_lower(other, position)?);
    }
    let (place, position) = position;
    let less = |own: i16, by: i64| constant(place, i64::from(own) - by);
    Ok(match position {
        Number::Constant(own) => Number::Constant(less(own, lower)?),
        Number::SizePlus(own) => Number::SizePlus(less(own, lower)?),
        Number::LeftPlus(own) => Number::LeftPlus(less(own, lower - earlier.len() as i64)?),
    })
}

/// Whether an earlier position of a bracket is lower than one behind it.
fn is_lower(earlier: Number, (place, position): Placed) -> Result<bool, Error> {
    match (earlier, position) {
        _ if earlier == position => Err(wrong(place, "the same position twice")),
        (Number::Constant(earlier), Number::Constant(own))
        | (Number::SizePlus(earlier), Number::SizePlus(own))
        | (Number::LeftPlus(earlier), Number::LeftPlus(own)) => Ok(earlier < own),
        (Number::Constant(_), _) | (_, Number::Constant(_)) => {
            let message = "positions from both ends in one bracket: which is lower depends on \
                           the list, so give each end a bracket";
            Err(wrong(place, message))
        }
        _ => {
            let message = "positions from `|q|`, as `-1` is, and from `|s|` in one bracket: \
                           give each size a bracket";
            Err(wrong(place, message))
        }
    }
}
