//! A program as text. Parsing the text gives the program back, tree for tree.

use crate::tree::{Comparison, Condition, Number, Program, Qubit, Statement};

/// The text of a program. Tables hold no names, so procedure 1 is `p1`.
#[must_use]
pub fn print(program: &Program) -> String {
    let mut lines = Lines::new();
    for (number, body) in (1..).zip(&program.bodies) {
        lines.push(format!("decl p{number}(q) {{"));
        lines.extend(indented(row(body)));
        lines.push("}".to_string());
    }
    lines.extend(headed("::", &program.main));
    lines.push(String::new());
    lines.join("\n")
}

/// Lines of a text.
type Lines = Vec<String>;

/// The lines, two columns further right.
fn indented(lines: Lines) -> impl Iterator<Item = String> {
    lines.into_iter().map(|line| format!("  {line}"))
}

/// A head and a row: behind it where that is one statement, else below it.
fn headed(head: &str, statement: &Statement) -> Lines {
    let mut lines = row(statement);
    if let Statement::Sequence(..) = statement {
        let mut headed = vec![head.to_string()];
        headed.extend(indented(lines));
        return headed;
    }
    lines[0] = format!("{head} {}", lines[0]);
    lines
}

/// The statements of a sequence, one below the other. A row leans right: a
/// sequence that stands first in another is a group.
fn row(statement: &Statement) -> Lines {
    match statement {
        Statement::Sequence(first, second) => {
            let mut lines = single(first);
            lines.extend(row(second));
            lines
        }
        other => single(other),
    }
}

/// One statement.
fn single(statement: &Statement) -> Lines {
    match statement {
        Statement::Skip => vec!["skip;".to_string()],
        Statement::Not(touched) => vec![format!("{} *= NOT;", qubit(touched))],
        Statement::Sequence(..) => {
            let mut lines = vec!["{".to_string()];
            lines.extend(indented(row(statement)));
            lines.push("}".to_string());
            lines
        }
        Statement::If(decides, yes, no) => {
            let mut lines = vec![format!("if {} then {{", condition(decides))];
            lines.extend(indented(row(yes)));
            lines.push("} else {".to_string());
            lines.extend(indented(row(no)));
            lines.push("}".to_string());
            lines
        }
        Statement::Qcase(touched, zero, one) => {
            let mut lines = vec![format!("qcase {} of {{", qubit(touched))];
            lines.extend(indented(headed("0 ->", zero)));
            lines.extend(indented(headed("1 ->", one)));
            lines.push("}".to_string());
            lines
        }
        Statement::Call {
            procedure,
            removals,
        } => vec![format!("call p{procedure}({});", list(removals))],
    }
}

/// A touched qubit.
fn qubit(touched: &Qubit) -> String {
    let position = number(touched.position, &touched.removals);
    if touched.removals.is_empty() {
        return format!("q[{position}]");
    }
    format!("({})[{position}]", list(&touched.removals))
}

/// A list, with its removals one after the other.
pub(super) fn list(removals: &[Number]) -> String {
    let in_turn = removals.iter().enumerate();
    let written = in_turn.map(|(turn, &removal)| {
        let removal = number(removal, &removals[..turn]);
        format!(" - [{removal}]")
    });
    format!("q{}", written.collect::<String>())
}

/// The size of what these removals left. The list stands between the bars,
/// unless a removal has such a size itself: then the text would nest.
fn size_left(so_far: &[Number]) -> String {
    let nests = |removal: &Number| matches!(removal, Number::LeftPlus(_));
    if so_far.is_empty() || so_far.iter().any(nests) {
        return "|s|".to_string();
    }
    format!("|{}|", list(so_far))
}

/// A number behind these removals; a negative constant is a difference.
fn number(number: Number, so_far: &[Number]) -> String {
    let (base, constant) = match number {
        Number::Constant(constant @ 0..) => return constant.to_string(),
        Number::Constant(constant) => ("0".to_string(), constant),
        Number::SizePlus(constant) => ("|q|".to_string(), constant),
        Number::LeftPlus(constant) => (size_left(so_far), constant),
    };
    match constant {
        0 => base,
        1.. => format!("{base} + {constant}"),
        _ => format!("{base} - {}", constant.unsigned_abs()),
    }
}

/// A condition.
fn condition(whole: &Condition) -> String {
    match whole {
        Condition::Or(first, second) => {
            format!("{} or {}", conjunction(first), condition(second))
        }
        other => conjunction(other),
    }
}

/// A condition beside an `or`.
fn conjunction(part: &Condition) -> String {
    match part {
        Condition::And(first, second) => {
            format!("{} and {}", factor(first), conjunction(second))
        }
        other => factor(other),
    }
}

/// A condition beside an `and` or behind a `not`.
fn factor(part: &Condition) -> String {
    match part {
        Condition::Not(inner) => format!("not {}", factor(inner)),
        Condition::Compare(comparison, a, b) => {
            let sign = match comparison {
                Comparison::Greater => ">",
                Comparison::AtLeast => ">=",
                Comparison::Equal => "=",
            };
            format!("{} {sign} {}", number(*a, &[]), number(*b, &[]))
        }
        Condition::And(..) | Condition::Or(..) => format!("({})", condition(part)),
    }
}
