//! A table read gives the tree that was written.

use foq_generator::programs::{program, wild_program, Shape, LARGE, SMALL};
use foq_generator::tree;
use foq_generator::Random;
use foq_reference::{read_table, Condition, Number, Program, Statement};

fn number(from: tree::Number) -> Number {
    match from {
        tree::Number::Constant(constant) => Number::Constant(constant),
        tree::Number::SizePlus(constant) => Number::SizePlus(constant),
        tree::Number::LeftPlus(constant) => Number::LeftPlus(constant),
    }
}

fn numbers(from: Vec<tree::Number>) -> Vec<Number> {
    from.into_iter().map(number).collect()
}

fn condition(from: tree::Condition) -> Condition {
    let part = |from: Box<tree::Condition>| Box::new(condition(*from));
    match from {
        tree::Condition::Greater(a, b) => Condition::Greater(number(a), number(b)),
        tree::Condition::AtLeast(a, b) => Condition::AtLeast(number(a), number(b)),
        tree::Condition::Equal(a, b) => Condition::Equal(number(a), number(b)),
        tree::Condition::And(first, second) => Condition::And(part(first), part(second)),
        tree::Condition::Or(first, second) => Condition::Or(part(first), part(second)),
        tree::Condition::Not(inner) => Condition::Not(part(inner)),
    }
}

fn statement(from: tree::Statement) -> Statement {
    let part = |from: Box<tree::Statement>| Box::new(statement(*from));
    match from {
        tree::Statement::Skip => Statement::Skip,
        tree::Statement::Not(removals, position) => Statement::Not {
            removals: numbers(removals),
            position: number(position),
        },
        tree::Statement::Sequence(first, second) => Statement::Sequence(part(first), part(second)),
        tree::Statement::If(by, yes, no) => Statement::If {
            condition: condition(by),
            yes: part(yes),
            no: part(no),
        },
        tree::Statement::Qcase(removals, position, zero, one) => Statement::Qcase {
            removals: numbers(removals),
            position: number(position),
            zero: part(zero),
            one: part(one),
        },
        tree::Statement::Call(removals, procedure) => Statement::Call {
            removals: numbers(removals),
            procedure: usize::from(procedure),
        },
    }
}

#[test]
fn tables_are_read_as_they_were_written() {
    let mut random = Random::from_seed(21);
    let makers: [fn(&mut Random, &Shape) -> tree::Program; 2] = [program, wild_program];
    let mut read = 0;
    for turn in 0..8_000 {
        let shape = [SMALL, LARGE][turn % 2];
        let written = makers[turn / 2 % 2](&mut random, &shape);
        match read_table(&tree::encode(&written)) {
            Ok(program) => {
                read += 1;
                let bodies = written.bodies.into_iter().map(statement).collect();
                let main = statement(written.main);
                assert_eq!(program, Program { main, bodies });
            }
            Err(refusal) => assert_eq!(refusal, 7),
        }
    }
    println!("read {read}");
    assert!(read > 7_000);
}
