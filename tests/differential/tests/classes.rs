//! All 136 cells: the library's joins and NOT against the printed tables and
//! against the written rule.

use differential::found;
use reference::classes::{from_tables, invert, rule, rule_not, Operation, ALL};

#[test]
fn all_cells() {
    let mut compared = 0;
    for (number, operation) in [(0, Operation::And), (1, Operation::Or)] {
        for a in ALL {
            for b in ALL {
                let found = found::join(number, a.code(), b.code());
                let place = format!("{operation:?} {} {}", a.name(), b.name());
                assert_eq!(found, from_tables(operation, a, b).code(), "{place}");
                assert_eq!(found, rule(operation, &[a, b]).code(), "{place}");
                compared += 1;
            }
        }
    }
    for a in ALL {
        let found = found::invert(a.code());
        assert_eq!(found, invert(a).code(), "NOT {}", a.name());
        assert_eq!(found, rule_not(a).code(), "NOT {}", a.name());
        compared += 1;
    }
    assert_eq!(compared, 136);
    println!("classes: {compared} cells compared");
}
