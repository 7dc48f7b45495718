//! Listing A, to the letter, and what stands in the table after it.

mod common;

use common::House;
use reference::lines::run;
use reference::table::{state, Controller};
use reference::vector::Pair;

/// Input left, output right.
const LISTING_A: &str = "\
O 3 1      done
S 0 1 7    sent 1
R 1        released 1 0
D 1        delivered 1 0 2
S 1 2 9    sent 2
R 2        released 2 2
D 2        delivered 2 0 2
S 2 0 5    sent 3
R 3        held 3 6
L 2 1      done
R 3        released 3 2
X 1        crashed 1 0 1 1 0
D 3        delivered 3 0 2
H 2 1 0    rolled 2 1 1 0 1 0
H 0 1 0    rolled 0 1 1 0 1 0
D 3        refused 7
";

const LEFT_COLUMN: usize = 11;

fn columns() -> (String, String) {
    let lines = LISTING_A.lines();
    lines
        .map(|line| line.split_at(LEFT_COLUMN))
        .map(|(input, output)| (format!("{}\n", input.trim_end()), format!("{output}\n")))
        .unzip()
}

#[test]
fn the_program_answers_as_listed() {
    let (input, output) = columns();
    assert_eq!(input.lines().count(), 16);
    assert_eq!(String::from_utf8(run(input.as_bytes())), Ok(output));
}

#[test]
fn the_table_after_it() {
    let (input, _) = columns();
    let accepted = input.trim_end().strip_suffix("D 3").expect("a last line");
    let house = House::after(accepted);
    let table = house.table();
    assert_eq!((table.n(), table.sent()), (3, 3));
    let states = [1, 2, 3].map(|message| table.message(message).state);
    // The cause of what controller 1 lost is offered again.
    assert_eq!(states, [state::RELEASED, state::DROPPED, state::DROPPED]);
    for c in 0..3 {
        let counts = Controller {
            degree: 1,
            incarnation: 1,
            live: 2,
            stable: 2,
        };
        assert_eq!(table.controller(c), counts);
        let newest = table.newest(c);
        assert_eq!((newest.incarnation, newest.number), (1, 2));
        assert_eq!((newest.cause, newest.flag), (0, 0));
        // The kept vector named only (0,1), known stable; the own pair is the new interval.
        let mut vector = [Pair::EMPTY; 8];
        vector[c] = Pair::new(1, 2);
        assert_eq!(newest.vector, vector);
        assert_eq!(table.ends(c).word(1, 0), 1);
        assert_eq!(table.known(c).word(c, 1), 2);
    }
    // Controller 2 had logged the interval that it undid; its word for incarnation 0 stays.
    assert_eq!(table.known(2).word(2, 0), 2);
    // Hearing raised what 0 and 2 know of 1.
    assert_eq!(
        [0, 1, 2].map(|holder| table.known(holder).word(1, 0)),
        [1, 1, 1]
    );
}
