//! That the lists of direct calls come to every answer 0 to 11, under each policy and above.

use harness::calls::{answers, calls};

#[test]
fn every_answer_of_a_direct_call_occurs() {
    let mut seen = [0_usize; 12];
    let (mut above, mut long) = (0, 0);
    for seed in 1..=2_000 {
        let list = calls(seed);
        let row = answers(&list.bytes());
        assert_eq!(row.len(), 3 * list.calls.len());
        for record in row.chunks(3) {
            seen[usize::from(record[0])] += 1;
            assert!(list.policy <= 2 || record == [1, 0, 0]);
        }
        above += usize::from(list.policy > 2);
        long += list.calls.iter().filter(|c| c.body.len() > 10).count();
    }
    println!("answers 0 to 11: {seen:?}");
    assert!(seen.iter().all(|&count| count >= 50), "{seen:?}");
    assert!(seen[0] > seen[1..].iter().sum());
    assert!(above > 20 && long > 20);
}

/// Policy 0, OWN KEY and OWN DATA; policy 3, OWN KEY; policy 1, OWN DATA and SEAL 0 0, the last byte of which is cut off.
#[test]
fn a_row_of_lists_by_hand() {
    let row = [
        0, 0, 2, 8, 0, 9, 0, 3, 0, 1, 8, 0, 1, 0, 2, 9, 0, 10, 4, 0, 0, 0,
    ];
    let wanted = [0, 0, 0, 0, 0, 1, 1, 0, 0, 0, 0, 0];
    assert_eq!(answers(&row), wanted);
    assert_eq!(answers(&row[..6]), wanted[..3]);
    assert_eq!(answers(&row[..2]), []);
}

#[test]
fn a_list_is_shortened() {
    let nine = |list: &harness::calls::Calls| list.calls.iter().any(|call| call.number == 9);
    let list = (1..).map(calls).find(nine).expect("OWN DATA is common");
    let short = list.shrink(nine);
    assert_eq!((short.calls.len(), short.calls[0].number), (1, 9));
}
