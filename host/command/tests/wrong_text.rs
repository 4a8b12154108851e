//! Wrong texts: where and why they are refused.

use foq_command::bytes::encode;
use foq_command::text::parse;

/// What is said of a wrong text.
fn error(text: &str) -> String {
    match parse(text) {
        Ok(program) => panic!("{text} is taken as {program:?}"),
        Err(error) => error.to_string(),
    }
}

/// The table of a good text.
fn assembled(text: &str) -> Vec<u8> {
    encode(&parse(text).unwrap())
}

/// Wrong texts, each on a line above what is said of it.
const WRONG: &str = "\
:: skip
line 1, column 8: expected `;`, found the end of the text
:: skip; }
line 1, column 10: expected a statement or the end of the text, found `}`
:: q[1] *= H;
line 1, column 12: expected `NOT`, found `H`
:: q[] *= NOT;
line 1, column 6: expected a number, found `]`
:: q[1, 2] *= NOT;
line 1, column 9: a second position for one NOT
:: q[-0] *= NOT;
line 1, column 6: positions from the end start with `-1`
:: call pairs(q);
line 1, column 9: no procedure `pairs` is declared
:: call if(q);
line 1, column 9: expected the name of a procedure, found `if`
decl f(p) { skip; }
line 1, column 8: expected `q`, found `p`
decl f(q) { skip; :: skip;
line 1, column 19: expected a statement or `}`, found `::`
decl f(q) { skip; } decl f(q) { skip; }
line 1, column 26: a second procedure `f`
:: if |q| < 1 then skip; else skip;
line 1, column 11: `<` says nothing here
:: if |q| then skip; else skip;
line 1, column 11: expected `>`, `>=` or `=`, found `then`
:: if |q| > -1 then skip; else skip;
line 1, column 13: expected a number, found `-`
:: if |q| > 1 then skip; skip; }
line 1, column 32: expected a statement or `else`, found `}`
:: qcase q[1] of { 1 -> skip; }
line 1, column 20: expected branch `0`, found `1`
:: qcase q[1] of { 0 -> skip; }
line 1, column 31: expected a statement or branch `1`, found `}`
:: q - [1, 1][1] *= NOT;
line 1, column 12: the same position twice
:: q[32768] *= NOT;
line 1, column 6: a constant outside -32768 to 32767
:: q[0 - 32769] *= NOT;
line 1, column 6: a constant outside -32768 to 32767
:: q[99999999999999999999] *= NOT;
line 1, column 6: a constant outside -32768 to 32767
:: skip; /* and so on
line 1, column 10: a comment without its `*/`
";

/// Asserts of so many wrong texts, each on a line above what is said of it, that
/// this is said.
fn assert_told(texts: &str, count: usize) {
    let lines: Vec<&str> = texts.lines().collect();
    assert_eq!(lines.len(), 2 * count);
    for pair in lines.chunks(2) {
        assert_eq!(error(pair[0]), pair[1], "{}", pair[0]);
    }
}

#[test]
fn wrong_texts_are_told_where_and_why() {
    assert_told(WRONG, 22);
}

/// Wrong sizes, each on a line above what is said of it.
const WRONG_SIZES: &str = "\
:: q[|x|] *= NOT;
line 1, column 7: expected `q`, `nil` or `s`, found `x`
:: q[|s - [1]|] *= NOT;
line 1, column 9: expected `|`, found `-`
:: (q - [1])[|q - [1]] *= NOT;
line 1, column 22: expected `|`, found `]`
:: (q - [1])[|q - 1|] *= NOT;
line 1, column 19: expected `[`, found `1`
:: q[|q - [1]|] *= NOT;
line 1, column 6: the size between bars must be that of `q`, from which nothing is removed so far; a smaller one is a difference, like `|q| - 1`
:: if 1 > |q - [1]| then skip; else skip;
line 1, column 11: the size between bars must be that of `q`, from which nothing is removed so far; a smaller one is a difference, like `|q| - 1`
:: if |nil| > 1 then skip; else skip;
line 1, column 7: the size between bars must be that of `q`, from which nothing is removed so far; a smaller one is a difference, like `|q| - 1`
:: q - [1, |q - [1]|][1] *= NOT;
line 1, column 12: the size between bars must be that of `q`, from which nothing is removed so far; a smaller one is a difference, like `|q| - 1`
:: (q - [1])[2 + |s|] *= NOT;
line 1, column 18: expected a number, found `|`
:: (q - [1])[|q - [2]| + 1] *= NOT;
line 1, column 14: the size between bars must be that of `q`, or of the list so far, here `q - [1]`; write `|s|` for the second
:: (q - [1] - [1])[|q - [1]|] *= NOT;
line 1, column 20: the size between bars must be that of `q`, or of the list so far, here `q - [1] - [1]`; write `|s|` for the second
:: (q - [-1])[|q - [|s|]|] *= NOT;
line 1, column 15: the size between bars must be that of `q`, or of the list so far, here `q - [|q|]`; write `|s|` for the second
:: q - [1] - [|q - [1] - [1]|][1] *= NOT;
line 1, column 15: the size between bars must be that of `q`, or of the list so far, here `q - [1]`; write `|s|` for the second
:: (q - [|s|] - [|s|])[|nil|] *= NOT;
line 1, column 24: the size between bars must be that of `q`, or of the list so far, here `q - [|s|] - [|s|]`; write `|s|` for the second
:: (q - [1] - [1] - [1])[|q - [1] - [|q - [2]|] - [1]|] *= NOT;
line 1, column 38: the size between bars must be that of `q`, or of the list so far, here `q - [1]`; write `|s|` for the second
:: q - [|s|, |s| + 1 - 1][1] *= NOT;
line 1, column 14: the same position twice
:: q - [|s|, 1][1] *= NOT;
line 1, column 14: positions from both ends in one bracket: which is lower depends on the list, so give each end a bracket
:: q - [1, |s|][1] *= NOT;
line 1, column 12: positions from both ends in one bracket: which is lower depends on the list, so give each end a bracket
:: q - [-1, |s| - 1][1] *= NOT;
line 1, column 13: positions from `|q|`, as `-1` is, and from `|s|` in one bracket: give each size a bracket
:: q - [|s|, |q|][1] *= NOT;
line 1, column 14: positions from `|q|`, as `-1` is, and from `|s|` in one bracket: give each size a bracket
:: q[|s| + 32768] *= NOT;
line 1, column 6: a constant outside -32768 to 32767
";

#[test]
fn wrong_sizes_are_told_where_and_why() {
    assert_told(WRONG_SIZES, 21);
}

#[test]
fn bars_too_deep_to_walk_are_refused() {
    let words = "the size between bars must be that of `q`, ";
    for removed in [0, 1, 2, 7] {
        let list = format!("q{}", " - [1]".repeat(removed));
        for inner in ["|q - [", "|q - [1] - [", "|nil - [", "|q - [1, "] {
            let deep = format!(":: {list} - [{}", inner.repeat(100_000));
            assert!(error(&deep).contains(words), "{list} - [{inner}");
        }
    }
}

#[test]
fn lines_and_columns_count_characters() {
    let nothing = "line 1, column 1: expected `decl` or `::`, found the end of the text";
    assert_eq!(error(""), nothing);
    let wrong = "/* ⊖ */ ::\n\n  q̄[1] *= NOT; ,";
    let words = "line 3, column 17: expected a statement or the end of the text, found `,`";
    assert_eq!(error(wrong), words);
}

#[test]
fn what_could_be_meant_in_two_ways_is_refused() {
    let behind_else = error(":: if |q| > 1 then skip; else skip; q[1] *= NOT;");
    assert!(behind_else
        .starts_with("line 1, column 37: a statement behind an `if` whose `else` has no braces"));
    let both_ends = error(":: q - [1, -1][1] *= NOT;");
    assert!(both_ends.starts_with("line 1, column 12: positions from both ends in one bracket"));
}

#[test]
fn the_limits_of_tables_are_kept() {
    let declared = |count: usize| {
        let procedures = (1..=count).map(|number| format!("decl f{number}(q) {{ skip; }}\n"));
        procedures.collect::<String>() + ":: skip;"
    };
    assert_eq!(assembled(&declared(16))[1], 16);
    assert_eq!(
        error(&declared(17)),
        "line 17, column 6: more than 16 procedures"
    );

    let removing = |count: usize| format!(":: q{}[1] *= NOT;", " - [1]".repeat(count));
    assert_eq!(assembled(&removing(8))[4], 8);
    assert_eq!(
        error(&removing(9)),
        "line 1, column 57: more than 8 removals"
    );
}

#[test]
fn a_text_too_deep_to_walk_is_refused() {
    let wrong = "more than 1000 statements, conditions and groups";
    let deep = [
        format!(":: {}skip;{}", "{".repeat(100_000), "}".repeat(100_000)),
        format!(":: {}", "skip; ".repeat(100_000)),
        format!(
            ":: if {} 1 > 1 then skip; else skip;",
            "not ".repeat(100_000)
        ),
        format!(":: if {}1 > 1", "(".repeat(100_000)),
        format!(":: if 1 > 1 {}", "and 1 > 1 ".repeat(100_000)),
        format!(":: qcase q[1{}] of {{", ", 1".repeat(100_000)),
    ];
    for text in deep {
        assert!(error(&text).ends_with(wrong));
    }
    let skips = |count: usize| format!(":: {}", "skip; ".repeat(count));
    assert_eq!(assembled(&skips(1_000)).len(), 2 + 999 * 2 + 1_000 * 2);
    assert!(error(&skips(1_001)).ends_with(wrong));
}
