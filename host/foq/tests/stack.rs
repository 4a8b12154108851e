//! The stack that `foq.h` names is enough for the tables that go deepest, and
//! the figures beside it are those that the C program `host/c/stack.c` measures.

mod programs;

use foq::{compile_to_vec, page_band, MOST_BAND};
use foq_generator::tables::{deepest, leaning_left, leaning_right};
use foq_generator::tree::{call, choose, longer_than, qcase, table, Number, Statement};
use programs::{compiled, printed, C11, HEADER};
use std::collections::BTreeMap;
use std::path::Path;
use Number::{LeftPlus, SizePlus};

/// A tree of this depth that ends with this statement.
type Lean = fn(usize, Statement) -> Statement;

/// The size of a list and a constant, by base 1 or 2.
type BySize = fn(i16) -> Number;

/// A call without the last position.
fn onward(size: BySize, procedure: u8) -> Statement {
    Statement::Call(vec![size(0)], procedure)
}

/// Calls of all these procedures from different branches: the qcases are on
/// the positions before the last `taken` ones.
fn fan(size: BySize, procedures: &[u8], taken: i16) -> Statement {
    if let [procedure] = procedures {
        return onward(size, *procedure);
    }
    let (zero, one) = procedures.split_at(procedures.len() / 2);
    let branch = |procedures| fan(size, procedures, taken + 1);
    qcase(vec![], size(-taken), branch(zero), branch(one))
}

/// A table of 254 records with an emission as deep as it could be made, on 30
/// qubits: main and procedures 1 to 8 lead on, each at the bottom of its tree, to
/// a class of eight. Of these procedure 9 calls itself and the others from eight
/// branches, until three qubits are left; the others call it with an empty list.
/// So 217 bodies of one chain lie around one another, inside eight chains of one
/// body, and no wire is left.
fn most_bodies(lean: Lean, size: BySize) -> Vec<u8> {
    let depths = [32, 32, 32, 18, 1, 1, 1, 1, 1];
    let lead = |own: u8| lean(depths[usize::from(own)], call(own + 1, &[]));
    let others: Vec<u8> = (10..=16).collect();
    let each = qcase(vec![], size(0), onward(size, 9), fan(size, &others, 1));
    let mut bodies: Vec<Statement> = (1..9).map(lead).collect();
    bodies.push(choose(longer_than(3), each, Statement::Skip));
    bodies.extend(others.iter().map(|_| call(9, &[0])));
    table(lead(0), &bodies)
}

/// The bytes of stack that each function takes.
type Taken = BTreeMap<String, usize>;

/// Measures each function, and raises what is known of it.
fn measure(program: &Path, table: &[u8], n: u32, word: u64, most: &mut Taken) {
    let (n, word) = (n.to_string(), word.to_string());
    let printed = printed(program, &["/dev/stdin", &n, &word], table);
    for line in String::from_utf8(printed).unwrap().lines() {
        let (name, taken) = line.split_once(' ').unwrap();
        let known = most.entry(name.to_string()).or_default();
        *known = taken.parse::<usize>().unwrap().max(*known);
    }
}

/// The KiB that the header says each function takes.
fn said() -> BTreeMap<&'static str, usize> {
    let lines = HEADER.lines().map(|line| line.split_whitespace());
    let figures = lines.filter_map(|words| match words.collect::<Vec<_>>()[..] {
        ["*", function, figure, "KiB"] => Some((function, figure.parse().ok()?)),
        _ => None,
    });
    figures.collect()
}

#[test]
fn the_deepest_tables_have_a_longest_band() {
    for lean in [leaning_left, leaning_right] {
        for size in [SizePlus, LeftPlus] {
            let circuit = compile_to_vec(&most_bodies(lean, size), 30).unwrap();
            let band = page_band(&circuit, 0, &mut []).unwrap();
            assert_eq!(band.length, MOST_BAND);
        }
    }
}

#[test]
fn the_deepest_tables_take_the_stack_that_the_header_says() {
    let program = compiled("stack.c", C11, "stack");
    let mut most = Taken::new();
    for lean in [leaning_left, leaning_right] {
        for n in [1, 31, 32] {
            for word in [0, (1 << n) - 1] {
                measure(&program, &deepest(lean), n, word, &mut most);
            }
        }
        for n in [1, 29, 30, 31, 32] {
            for size in [SizePlus, LeftPlus] {
                measure(&program, &most_bodies(lean, size), n, 0, &mut most);
            }
        }
    }
    println!("{most:?}");
    assert_eq!(most.len(), 8);
    for (function, taken) in most {
        let (kib, said) = (taken.div_ceil(1024), said()[&*function]);
        // Another compiler may lay out the frames a little differently.
        assert!(kib <= said && said * 9 <= kib * 10, "{function}: {kib} KiB");
    }
}
