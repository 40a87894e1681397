//! The drive program: document 01's example, its ends, and input that is not of the form.

use crate::drive::drive;

#[test]
fn the_example() {
    let expected = "blocked 1\nplan 4 4\nmove 3\nmove 4\nmove 5\nmove 2\narrived 4\n";
    assert_eq!(drive(b"3 2 0 2\n.#.\n...\n"), expected);
}

#[test]
fn on_the_goal_it_looks_and_ends() {
    assert_eq!(drive(b"1 1 0 0\n.\n"), "arrived 0\n");
    assert_eq!(drive(b"2 1 0 0\n.#\n"), "blocked 1\narrived 0\n");
}

#[test]
fn no_way() {
    assert_eq!(drive(b"3 1 0 2\n.#.\n"), "blocked 1\nno way 1\n");
    assert_eq!(drive(b"3 1 0 2\n..#\n"), "plan 2 2\nmove 1\nblocked 2\nno way 2\n");
}

#[test]
fn it_looks_in_direction_order() {
    assert_eq!(drive(b"3 3 4 0\n.#.\n#.#\n.#.\n"), "blocked 5\nblocked 7\nblocked 3\nblocked 1\nno way 1\n");
}

#[test]
fn a_second_plan_where_the_first_route_ends() {
    // The second plan expands 1, 0 (as near as 5, and the lower), 5, 6 and 7.
    let expected = "plan 3 3\nmove 1\nblocked 2\nplan 4 5\nmove 5\nmove 6\nmove 7\nmove 3\narrived 5\n";
    assert_eq!(drive(b"4 2 0 3\n..#.\n....\n"), expected);
}

#[test]
fn bad_input() {
    let bad: [&[u8]; 27] = [
        b"",
        b"\n",
        b"1 1 0 0",
        b"1 1 0 0\n",
        b"1 1 0 0\n.",
        b"1 1 0 0\n.\n\n",
        b"1 1 0 0\n.\n.",
        b"1 1 0 0\r\n.\r\n",
        b"1 1 0 0\n#\n",
        b"1 1 0 0\nx\n",
        b"1 1 0 0 \n.\n",
        b" 1 1 0 0\n.\n",
        b"1  1 0 0\n.\n",
        b"1 1 0\n.\n",
        b"1 1 0 0 0\n.\n",
        b"01 1 0 0\n.\n",
        b"1 1 00 0\n.\n",
        b"+1 1 0 0\n.\n",
        b"1 1 0 -0\n.\n",
        b"0 1 0 0\n\n",
        b"1 0 0 0\n",
        b"65 1 0 0\n.................................................................\n",
        b"1 1 1 0\n.\n",
        b"1 1 0 1\n.\n",
        b"2 1 0 18446744073709551616\n..\n",
        b"2 1 0 1\n...\n",
        b"2 2 0 1\n..\n.\n.",
    ];
    for input in bad {
        assert_eq!(drive(input), "bad input\n", "{}", String::from_utf8_lossy(input));
    }
}
