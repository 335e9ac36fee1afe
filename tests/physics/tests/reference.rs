//! Every check of the examples' lists, with the reference as the unroller.

use physics::{checks, REFERENCE};

macro_rules! with_the_reference {
    ($($name:ident)*) => {$(
        #[test]
        fn $name() {
            if let Err(message) = checks::$name(&REFERENCE) {
                panic!("{message}");
            }
        }
    )*};
}

with_the_reference! {
    bell_pair_agrees
    coin_is_put_back
    teleport_moves_the_state
    toffoli_is_a_toffoli
    maj_is_the_majority
    adder_adds
    adder_and_back_is_no_change
    ctrladd_adds_under_control
    ctrladd_as_printed_adds_two_cells_only
    ctrladd_guarded_adds_from_two_cells_on
    there_and_back_is_no_change
    library_flips_what_it_names
    fourier_transforms
    fourier_and_back_is_no_change
    fourier_adder_adds
    fourier_run_adds_one_and_one
    multiplier_multiplies
    multiplier_and_back_is_no_change
    multiplier_as_printed_loses_carries
    multiplier_run_gives_nine
    fourier_by_slices_is_the_same
    passed_adders_add_under_control
    multiplier_of_multiplies
    multiplier_of_both_adders_is_the_same
    multiplier_of_and_back_is_no_change
    multiplier_of_run_gives_nine_twice
    passed_adder_lists_as_called
    reversed_lists_are_mirrored
    lists_of_both_calls_agree
}
