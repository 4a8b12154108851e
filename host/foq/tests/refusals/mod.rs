//! Tables for each refusal, in the order of the refusals.

use foq_generator::tree::{call, not, sequence, table};

/// Tables with the defect of their number and, behind it in the order, as
/// many others as can stand beside it.
pub fn tables_in_order() -> Vec<(u32, Vec<u8>)> {
    let wide = || sequence(call(1, &[1]), call(1, &[1]));
    let unremoved = || call(2, &[]);
    let wrong = table(not(0), &[wide(), unremoved()]);
    let left_over = [&wrong[..], &[0]].concat();
    // The last record of all, a call, has a procedure byte past p.
    let mut field = left_over.clone();
    field[wrong.len() - 1] = 9;
    let field_stops = &wrong[..wrong.len() - 1];
    // Behind 32 sequences one record more is too deep.
    let deep = |record: &[u8]| {
        let chain = [0, 2, 0, 0].repeat(31);
        [&[1, 0], &chain[..], &[0, 2], record].concat()
    };
    vec![
        (1, vec![]),
        (1, vec![7]),
        (2, vec![7, 17, 0x80, 12]),
        (3, vec![1, 17, 0x80, 12]),
        (1, vec![1, 0]),
        (1, deep(&[0x80])),
        (4, deep(&[0x80, 12])),
        (7, deep(&[0x81, 1, 0])),
        (5, vec![1, 0, 0x81, 1, 0]),
        (5, vec![1, 0, 0x83, 1]),
        (1, vec![1, 0, 3, 1]),
        (6, vec![1, 0, 3, 1, 9, 2]),
        (1, vec![1, 0, 3, 1, 1, 2]),
        (6, vec![1, 0, 3, 1, 1, 3]),
        (6, field),
        (1, field_stops.to_vec()),
        (8, left_over),
        (10, wrong),
        (11, table(not(0), &[wide()])),
        (12, table(not(0), &[])),
        (0, table(not(1), &[])),
    ]
}
