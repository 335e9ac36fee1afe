//! What is shown inside loops, whose bodies run only where the range is not empty, and what the
//! tool says where that is not enough.

mod common;

use common::{gives, not_shown};

/// Shows that a text is accepted.
fn accepted(text: &str) {
    gives(&["check", "-"], text, 0, "end 0 0 0 0\n", "");
}

/// The text of a family with a body about x, y and z, behind a family that takes k cells.
fn family(body: &str) -> String {
    format!(
        "family(k) f(y: Qbit[k]) {{}}
         family(n, m) g(x: Qbit[n], y: Qbit[n+m], z: Qbit[3]) {{ {body} }}"
    )
}

#[test]
fn the_range_of_the_loop_shows_it() {
    accepted(&family("for i = 1..n-1 { h x[0]; t x[1]; }"));
    accepted(&family("for i = 1..n-1 { cx x[n-1], x[n-2]; }"));
    accepted(&family("for i = 1..n-1 { phase(n-2) x[i]; }"));
    accepted(&family("for i = 1..n-1 { f(n-2)(x); f(2)(x); }"));
    accepted(&family("for i = 1..n-1 { f(2)(x[n-2..n-1]); }"));
    accepted(&family("for i = 1..n-1 { reverse { h x[0]; } }"));
    accepted(&family("for i = 1..0 { h z[3]; }"));
}

#[test]
fn the_range_of_an_outer_loop_shows_it() {
    accepted(&family(
        "for i = 1..n-1 { for j = i..1 { cx x[0], x[1]; } }",
    ));
    accepted(&family("for i = 1..n-1 { for j = 0..3 { h x[1]; } }"));
    accepted(&family(
        "for i = 0..3 { for j = 1..n-1 { for l = 1..m { h x[1]; h y[n]; } } }",
    ));
}

#[test]
fn the_range_of_the_loop_is_not_enough() {
    not_shown(
        &family("for i = 1..n-1 { h x[2]; }"),
        "x[2]: the index 2 is 0 or more, but is not shown to be below the size n: \
         size - 1 - index comes to n - 3, which is -3 at n = 0, \
         and that the loop over i runs only where 1 <= n - 1 does not make up for it",
    );
    not_shown(
        &family("for i = 1..n-1 { h x[n-3]; }"),
        "x[n - 3]: the index n - 3 is not shown to be 0 or more: \
         it comes to n - 3, which is -3 at n = 0, \
         and that the loop over i runs only where 1 <= n - 1 does not make up for it",
    );
    not_shown(
        &family("for i = 1..n-1 {} h x[0];"),
        "x[0]: the index 0 is 0 or more, but is not shown to be below the size n: \
         size - 1 - index comes to n - 1, which is -1 at n = 0",
    );
}

#[test]
fn two_ranges_are_not_taken_together() {
    not_shown(
        &family("for i = 1..n { for j = 1..m { h y[1]; } }"),
        "y[1]: the index 1 is 0 or more, but is not shown to be below the size n + m: \
         size - 1 - index comes to n + m - 2, which is -2 at n = 0, m = 0, \
         and no single loop around it makes up for it by running only where low <= high",
    );
    accepted(&family("for i = 1..n { for j = 1..m { h y[0]; } }"));
}

#[test]
fn what_a_range_shows_has_not_failed() {
    let room = "and that the loop over i runs only where 1 <= n - 1 does not make up for it";
    let fails = |body: &str, details: &str| not_shown(&family(body), &format!("{details}, {room}"));
    fails(
        "for i = 1..n-1 { h z[n-2]; }",
        "z[n - 2]: the index n - 2 is 0 or more, but is not shown to be below the size 3: \
         size - 1 - index comes to -n + 4, which falls below 0 as n grows",
    );
    fails(
        "for i = 1..n-1 { f(0)(z[n-2..n-1]); }",
        "z[n - 2..n - 1]: the last index n - 1, which is in the slice, is not shown to be below \
         the size 3: size - 1 - last comes to -n + 3, which falls below 0 as n grows",
    );
    fails(
        "for i = 1..n-1 { f(0)(x[n-2..0]); }",
        "x[n - 2..0]: its number of cells is not shown to be 0 or more: \
         last - first + 1 comes to -n + 3, which falls below 0 as n grows",
    );
    fails(
        "for i = 1..n-1 { f(3)(x[n-2..n-1]); }",
        "'x[n - 2..n - 1]' has 2 cells, and 'y' of 'f' takes 3 here: \
         the one less the other comes to -1",
    );
    fails(
        "for i = 1..n-1 { f(n-2)(z); }",
        "'z' has 3 cells, and 'y' of 'f' takes n - 2 here: \
         the one less the other comes to -n + 5, which falls below 0 as n grows",
    );
}

#[test]
fn the_first_showing_that_a_range_leaves_open_is_named() {
    not_shown(
        &family("for i = 1..n-1 { f(n-3)(x); }"),
        "the size n - 3 for 'k' of 'f' is not shown to be 0 or more: \
         it comes to n - 3, which is -3 at n = 0, \
         and that the loop over i runs only where 1 <= n - 1 does not make up for it",
    );
    not_shown(
        &family("for i = 0..3 { for j = 1..n-1 { phase(j-2) x[n]; } }"),
        "the k j - 2 of this phase is not shown to be 0 or more: \
         it comes to -1 with j at its low bound 1, \
         and no single loop around it makes up for it by running only where low <= high",
    );
}

#[test]
fn a_range_whose_numbers_are_too_large_shows_nothing() {
    let far = "40000 * 40000";
    not_shown(
        &family(&format!("for i = {far}..0-{far} {{ h x[0]; }}")),
        "x[0]: the index 0 is 0 or more, but is not shown to be below the size n: \
         size - 1 - index comes to n - 1, which is -1 at n = 0, and that the loop over i runs \
         only where 40000 * 40000 <= 0 - 40000 * 40000 does not make up for it \
         (for i, a number on the way is past 2,000,000,000)",
    );
    not_shown(
        &family(&format!(
            "for i = {far}..0-{far} {{ for j = 2..n {{ for l = {far}..0-i {{ h x[2]; }} }} }}"
        )),
        "x[2]: the index 2 is 0 or more, but is not shown to be below the size n: \
         size - 1 - index comes to n - 3, which is -3 at n = 0, \
         and no single loop around it makes up for it by running only where low <= high \
         (for i, l, a number on the way is past 2,000,000,000)",
    );
    accepted(&family(&format!(
        "for i = {far}..0-{far} {{ for j = 2..n {{ h x[1]; }} }}"
    )));
}
