//! Texts and the bytes that they stand for.

use foq_command::bytes::encode;
use foq_command::text::parse;
use foq_command::tree;
use foq_generator::tree::{
    call, case, choose, longer_than, not, procedure, qcase, sequence, table, Condition, Number,
    Statement,
};
use foq_generator::PAIRS;
use Number::{Constant, SizePlus};
use Statement::Skip;

/// PAIRS in document 01.
const WORKED: [u8; 59] = [
    0x01, 0x01, 0x08, 0x05, 0x01, 0x00, 0x03, 0x06, 0x06, 0x01, 0x00, 0x00, 0x00, 0x01, 0x00, 0x02,
    0x04, 0x00, 0x01, 0x00, 0x02, 0x04, 0x00, 0x02, 0x00, 0x09, 0x05, 0x02, 0x00, 0x01, 0x00, 0x00,
    0x01, 0x00, 0x01, 0x00, 0x00, 0x02, 0x04, 0x00, 0x02, 0x00, 0x00, 0x00, 0x09, 0x05, 0x02, 0x00,
    0x01, 0x00, 0x00, 0x01, 0x00, 0x01, 0x02, 0x01, 0x00, 0x01, 0x00,
];

/// The document on texts.
const DOCUMENT: &str = include_str!("../../../docs/TEXT.md");

/// The table of a text.
fn assembled(text: &str) -> Vec<u8> {
    match parse(text) {
        Ok(program) => encode(&program),
        Err(error) => panic!("{error}\n{text}"),
    }
}

/// The table of a main statement beside a procedure `f` that does nothing.
fn main_statement(text: &str) -> Vec<u8> {
    assembled(&format!("decl f(q) {{ skip; }} :: {text}"))
}

/// Asserts that a main statement has the bytes of its tree.
fn says(text: &str, main: Statement) {
    assert_eq!(main_statement(text), table(main, &[Skip]), "{text}");
}

#[test]
fn pairs_has_the_bytes_of_document_01() {
    let from_the_document = DOCUMENT.split("```").nth(1).unwrap();
    assert_eq!(assembled(from_the_document), WORKED);
    assert_eq!(PAIRS, WORKED);
}

#[test]
fn the_document_has_the_rules_that_are_parsed() {
    let grammar = DOCUMENT.split("```").nth(3).unwrap();
    let parser = include_str!("../src/text/parse.rs");
    let rules: Vec<&str> = grammar.trim().lines().collect();
    for rule in &rules {
        let words: Vec<&str> = rule.split_whitespace().collect();
        let rule = words.join(" ");
        assert!(parser.contains(&format!("/// `{rule}`")), "{rule}");
    }
    let parsed = parser.lines().map(str::trim);
    let parsed = parsed.filter(|line| line.starts_with("/// `") && line.contains(" = "));
    assert_eq!(rules.len(), parsed.count());
}

#[test]
fn the_papers_signs_are_understood() {
    let pairs = "decl pairs(q̄) {
        if |q̄| > 1 then
          qcase q̄[1, 2] of {
            00 → call pairs(q̄ ⊖ [1, 2]);
            01 → skip;
            10 → skip;
            11 → call pairs(q̄ ⊖ [1, 2]);
          }
        else q̄[1] *= NOT; }
      :: call pairs(q̄);";
    assert_eq!(assembled(pairs), WORKED);
    let unicode = "if |q̄| − 1 ≥ 2 ∧ ¬ 1 = 1 ∨ 2 > 1 then skip; else skip;";
    let ascii = "if |q| - 1 >= 2 and not 1 = 1 or 2 > 1 then skip; else skip;";
    assert_eq!(main_statement(unicode), main_statement(ascii));
}

#[test]
fn leaves_have_their_bytes() {
    says("skip;", Skip);
    says("q[3] *= NOT;", not(3));
    says("call f(q);", call(1, &[]));
    says("call f(nil);", call(1, &[0]));
    says("call f(q - [1] - [1]);", call(1, &[1, 1]));
}

#[test]
fn rows_lean_right() {
    let leaning_right = sequence(not(1), sequence(not(2), not(3)));
    says("q[1] *= NOT; q[2] *= NOT; q[3] *= NOT;", leaning_right);
    let leaning_left = sequence(sequence(not(1), not(2)), not(3));
    says("{ q[1] *= NOT; q[2] *= NOT; } q[3] *= NOT;", leaning_left);
}

#[test]
fn ifs_have_their_bytes() {
    let flips = || choose(longer_than(1), not(1), Skip);
    says("if |q| > 1 then q[1] *= NOT; else skip;", flips());
    let before = sequence(flips(), not(3));
    says(
        "if |q| > 1 then q[1] *= NOT; else { skip; } q[3] *= NOT;",
        before.clone(),
    );
    says(
        "{ if |q| > 1 then q[1] *= NOT; else skip; } q[3] *= NOT;",
        before,
    );
    says(
        "if |q| > 2 then q[4] *= NOT; if |q| > 1 then q[1] *= NOT; else skip; else q[2] *= NOT;",
        choose(longer_than(2), sequence(not(4), flips()), not(2)),
    );
    says(
        "if |q| > 2 then skip; else if |q| > 1 then q[1] *= NOT; else skip;",
        choose(longer_than(2), Skip, flips()),
    );
}

#[test]
fn qcases_have_their_bytes() {
    says(
        "qcase q[2] of { 0 -> q[1] *= NOT; skip;, 1 -> skip; }",
        case(2, sequence(not(1), Skip), Skip),
    );
    says(
        "qcase q[1, 3] of { 00 -> skip; 01 -> q[2] *= NOT; 10 -> skip; 11 -> call f(nil); }",
        case(1, case(3, Skip, not(2)), case(3, Skip, call(1, &[0]))),
    );
    let removed = || vec![Constant(1)];
    let last = || qcase(removed(), SizePlus(-1), Skip, Skip);
    says(
        "qcase (q - [1])[1, -1] of { 00 -> skip; 01 -> skip; 10 -> skip; 11 -> skip; }",
        qcase(removed(), Constant(1), last(), last()),
    );
}

#[test]
fn numbers_have_their_bytes() {
    let at = |position| Statement::Not(vec![], position);
    says("q[|q|] *= NOT;", at(SizePlus(0)));
    says("q[|q| - 2 + 1] *= NOT;", at(SizePlus(-1)));
    says("q[0 - 32768] *= NOT;", at(Constant(-32_768)));
    says("q[32767] *= NOT;", at(Constant(32_767)));
    says("q[-1] *= NOT;", at(SizePlus(0)));
    says("q[-3] *= NOT;", at(SizePlus(-2)));
}

#[test]
fn lists_have_their_bytes() {
    let first = |removals: &[Number]| Statement::Not(removals.to_vec(), Constant(1));
    says("nil[1] *= NOT;", first(&[Constant(0)]));
    says("q - [2][1] *= NOT;", first(&[Constant(2)]));
    let [one, two, three, five] = [1, 2, 3, 5].map(Constant);
    says("(q - [1, 2, 5])[1] *= NOT;", first(&[one, one, three]));
    says("(q - [5, 2, 1])[1] *= NOT;", first(&[five, two, one]));
    let [last, next] = [0, -1].map(SizePlus);
    says("(q - [-2, -1])[1] *= NOT;", first(&[next, next]));
    says("(q - [-1] - [-1])[1] *= NOT;", first(&[last, next]));
    let rest = Statement::Not(vec![last, one, one], SizePlus(-3));
    says("(q - [-1] - [1, 2])[-1] *= NOT;", rest);
}

/// Asserts that a condition has the bytes of its tree. In the text, A, B and C
/// stand for three comparisons.
fn condition_says(text: &str, condition: Condition) {
    let text = text.replace('A', "|q| > 1").replace('B', "2 >= |q| + 3");
    let text = text.replace('C', "0 - 4 = |q| - 5");
    let main = choose(condition, Skip, Skip);
    says(&format!("if {text} then skip; else skip;"), main);
}

#[test]
fn conditions_have_their_bytes() {
    let and = |first, second| Condition::And(Box::new(first), Box::new(second));
    let or = |first, second| Condition::Or(Box::new(first), Box::new(second));
    let not = |inner| Condition::Not(Box::new(inner));
    let a = || Condition::Greater(SizePlus(0), Constant(1));
    let b = || Condition::AtLeast(Constant(2), SizePlus(3));
    let c = || Condition::Equal(Constant(-4), SizePlus(-5));
    condition_says("A", a());
    condition_says("B", b());
    condition_says("C", c());
    condition_says("not A", not(a()));
    condition_says("A and B", and(a(), b()));
    condition_says("A or B", or(a(), b()));
    condition_says("not A and B or C", or(and(not(a()), b()), c()));
    condition_says("A or B or C", or(a(), or(b(), c())));
    condition_says("(A and B) and C", and(and(a(), b()), c()));
    condition_says("not (A or B)", not(or(a(), b())));
}

#[test]
fn procedures_are_numbered_as_declared() {
    let text = "/* one */ decl first(q) { call _second2(q - [1]); }, /* two */
                decl _second2(q) { skip; }
                :: call first(q);";
    let bytes = table(call(1, &[]), &[call(2, &[1]), Skip]);
    assert_eq!(assembled(text), bytes);
    let own = "decl größe(q) { call größe(q - [1]); } :: call größe(q);";
    assert_eq!(assembled(own), procedure(call(1, &[1])));
    assert_eq!(assembled("::skip;"), [1, 0, 0, 0]);
}

/// A constant as the parser gives it.
fn constant(constant: i16) -> tree::Number {
    tree::Number::Constant(constant)
}

/// The whole list's size and a constant, as the parser gives them.
fn size(constant: i16) -> tree::Number {
    tree::Number::SizePlus(constant)
}

/// The size of what is left and a constant, as the parser gives them.
fn left(constant: i16) -> tree::Number {
    tree::Number::LeftPlus(constant)
}

/// The removals and the position of a text's one NOT.
fn touched(text: &str) -> (Vec<tree::Number>, tree::Number) {
    match parse(&format!(":: {text} *= NOT;")).map(|program| program.main) {
        Ok(tree::Statement::Not(qubit)) => (qubit.removals, qubit.position),
        other => panic!("{text}: {other:?}"),
    }
}

/// Asserts that what a NOT touches has these removals and this position.
fn touches(text: &str, removals: &[tree::Number], position: tree::Number) {
    assert_eq!(touched(text), (removals.to_vec(), position), "{text}");
}

#[test]
fn the_size_left_has_its_bytes() {
    let position = [1, 0, 3, 1, 1, 0, 1, 0, 2, 0xfe, 0xff];
    assert_eq!(assembled(":: (q - [1])[|s| - 2] *= NOT;"), position);
    let removal = [1, 1, 9, 5, 2, 0, 1, 0, 2, 3, 0, 1, 0, 0];
    assert_eq!(main_statement("call f(q - [1] - [|s| + 3]);"), removal);
    let comparison = [1, 0, 0, 3, 6, 6, 2, 0, 0, 1, 0, 0, 0, 0, 0, 0];
    let text = ":: if |s| > |q| then skip; else skip;";
    assert_eq!(assembled(text), comparison);
    let other_side = [1, 0, 0, 3, 6, 8, 0, 4, 0, 2, 0xff, 0xff, 0, 0, 0, 0];
    let text = ":: if 4 = |s| - 1 then skip; else skip;";
    assert_eq!(assembled(text), other_side);
}

#[test]
fn the_size_left_is_base_2_everywhere() {
    touches("q[|s|]", &[], left(0));
    touches("q - [|s|][1]", &[left(0)], constant(1));
    touches("(q - [1])[|s| + 2 - 3]", &[constant(1)], left(-1));
    touches("(q - [|s|] - [|s|])[|s|]", &[left(0), left(0)], left(0));
    // Other sizes are those of the whole list, as before.
    touches("(q - [1])[|q|]", &[constant(1)], size(0));
    touches("(q - [|s|])[-1]", &[left(0)], size(-1));
    touches("(q - [|s|] - [-1])[-2]", &[left(0), size(-1)], size(-3));
}

#[test]
fn the_list_so_far_may_be_written_out() {
    let one = constant(1);
    touches("(q - [1])[|q - [1]|]", &[one], left(0));
    touches("q ⊖ [1] ⊖ [|q̄ ⊖ [1]| − 2][1]", &[one, left(-2)], one);
    touches("(q - [1, 2])[|q - [1, 2]| + 1]", &[one, one], left(1));
    touches("(q - [1, 2])[|q - [1] - [1]|]", &[one, one], left(0));
    touches("(q - [1] - [1])[|q - [1, 2]|]", &[one, one], left(0));
    touches("(q - [-1])[|q - [|q|]|]", &[size(0)], left(0));
    touches("(q - [3 - 2])[|q - [1]|]", &[one], left(0));
    let nil = constant(0);
    for text in ["nil[|nil|]", "nil[|q - [0]|]", "(q - [0])[|nil|]"] {
        touches(text, &[nil], left(0));
    }
    touches("(nil - [2])[|nil - [2]|]", &[nil, constant(2)], left(0));
    touches("nil - [|nil|][1]", &[nil, left(0)], one);
}

#[test]
fn lists_between_bars_may_hold_sizes_left() {
    touches(
        "(q - [|s|] - [1])[|q - [|s|] - [1]|]",
        &[left(0), constant(1)],
        left(0),
    );
    // Each list is the one before it, less its last qubit: as deep as bars go.
    let deeper = |list: String, _| match list.as_str() {
        "q" => "q - [|s|]".to_string(),
        list => format!("{list} - [|{list}|]"),
    };
    let deepest = (0..8).fold("q".to_string(), deeper);
    touches(&format!("({deepest})[|{deepest}|]"), &[left(0); 8], left(0));
}

#[test]
fn a_procedure_may_still_be_called_s() {
    let text = "decl s(q) { call s(q - [|s|]); } :: call s(q);";
    let bytes = [1, 1, 8, 5, 1, 9, 5, 1, 2, 0, 0, 1];
    assert_eq!(assembled(text), bytes);
}

#[test]
fn the_size_left_in_a_bracket_is_that_before_it() {
    let [one, two] = [1, 2].map(constant);
    touches("q - [|s|, |s| - 1][1]", &[left(0), left(0)], one);
    touches("q - [|s| - 1, |s|][1]", &[left(-1), left(0)], one);
    let three = [left(-1), left(-1), left(1)];
    touches("q - [|s| - 1, |s| - 2, |s| + 1][2]", &three, two);
    let written_out = "q - [1] - [|q - [1]|, |q - [1]| - 2][1]";
    touches(written_out, &[one, left(0), left(-1)], one);
    // Positions of a qcase stand side by side: nothing is removed between them.
    let both = "qcase (q - [1])[1, |s|] of { 00 -> skip; 01 -> skip; 10 -> skip; 11 -> skip; }";
    let inner = [3, 4, 1, 0, 1, 0, 2, 0, 0, 0, 0, 0, 0];
    let mut bytes = vec![1, 0, 3, 4, 1, 0, 1, 0, 0, 1, 0];
    bytes.extend(inner.repeat(2));
    assert_eq!(assembled(&format!(":: {both}")), bytes);
}

/// What removals leave of a list whose entries are its positions.
fn remaining(removals: &[tree::Number], whole: i64) -> Vec<i64> {
    let mut list: Vec<i64> = (1..=whole).collect();
    for removal in removals {
        let position = match *removal {
            tree::Number::Constant(constant) => i64::from(constant),
            tree::Number::SizePlus(constant) => whole + i64::from(constant),
            tree::Number::LeftPlus(constant) => list.len() as i64 + i64::from(constant),
        };
        if (1..=list.len() as i64).contains(&position) {
            list.remove(position as usize - 1);
        } else {
            list.clear();
        }
    }
    list
}

/// What a bracket of positions, each so far from the end, leaves of a list.
fn without(list: Vec<i64>, from_end: [i64; 3]) -> Vec<i64> {
    let length = list.len() as i64;
    let positions = from_end.map(|constant| length + constant);
    if !positions
        .iter()
        .all(|position| (1..=length).contains(position))
    {
        return Vec::new();
    }
    let numbered = (1..).zip(list);
    let kept = numbered.filter(|(position, _)| !positions.contains(position));
    kept.map(|(_, entry)| entry).collect()
}

/// Every three different constants from -4 to 1, in every order.
fn three_constants() -> impl Iterator<Item = [i64; 3]> {
    let all = || -4..=1;
    let pairs = all().flat_map(move |a| all().map(move |b| [a, b]));
    let threes = pairs.flat_map(move |[a, b]| all().map(move |c| [a, b, c]));
    threes.filter(|[a, b, c]| a != b && b != c && a != c)
}

#[test]
fn a_bracket_by_the_size_left_removes_positions_of_the_list_before_it() {
    let (mut some_left, mut none_left) = (0, 0);
    for before in ["q", "q - [1]", "q - [-1]", "q - [2] - [|s| - 1]", "nil"] {
        let (first, _) = touched(&format!("({before})[1]"));
        for constants in three_constants() {
            let bracket = constants.map(|constant| format!("|s| + {} - 4", 4 + constant));
            let list = format!("{before} - [{}]", bracket.join(", "));
            let (removals, _) = touched(&format!("({list})[1]"));
            for whole in 0..=8 {
                let expected = without(remaining(&first, whole), constants);
                assert_eq!(remaining(&removals, whole), expected, "{list}, {whole}");
                some_left += usize::from(!expected.is_empty());
                none_left += usize::from(expected.is_empty());
            }
        }
    }
    assert!(
        some_left > 700 && none_left > 700,
        "{some_left}, {none_left}"
    );
}
