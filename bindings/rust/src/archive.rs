//! The functions of `libkapitsa.a`, as `kapitsa.h` declares them. Each asks that a pointer and its length
//! belong together, that what is written overlaps nothing else that is lent, and that the control word
//! is the default ([`DefaultControl`](crate::control::DefaultControl)); it tests all else.

#[rustfmt::skip]
unsafe extern "C" {
    pub(crate) fn kapitsa_solve_position(
        numbers: *mut f64, numbers_len: usize, words: *const u32, words_len: usize,
        masses: *const f64, masses_len: usize, centres: *const f64, centres_len: usize,
        rule_words: *const u32, rule_words_len: usize,
        rule_tolerances: *const f64, rule_tolerances_len: usize,
        rows: u32, bodies: u32, limit: u32, mode: u32, shift: f64,
        solution: *mut f64, solution_len: usize, impulses: *mut f64, impulses_len: usize,
        new_centres: *mut f64, new_centres_len: usize,
        rule_numbers: *mut u32, rule_numbers_len: usize,
        counts: *mut u32, counts_len: usize, maxima: *mut f64, maxima_len: usize,
        jacobians: *mut f64, jacobians_len: usize, links: *mut u32, links_len: usize,
        tolerances: *mut f64, tolerances_len: usize, diagonal: *mut f64, diagonal_len: usize,
        residual: *mut f64, residual_len: usize, pending: *mut f64, pending_len: usize,
        direction: *mut f64, direction_len: usize, product: *mut f64, product_len: usize,
        body_impulses: *mut f64, body_impulses_len: usize, pattern: *mut u32, pattern_len: usize,
        order: *mut u32, order_len: usize, values: *mut f64, values_len: usize,
    ) -> u32;

    pub(crate) fn kapitsa_propose_position(
        numbers: *const f64, numbers_len: usize, words: *const u32, words_len: usize,
        masses: *const f64, masses_len: usize, centres: *const f64, centres_len: usize,
        rule_words: *const u32, rule_words_len: usize,
        rule_tolerances: *const f64, rule_tolerances_len: usize,
        rows: u32, bodies: u32, limit: u32, mode: u32, shift: f64,
        solution: *mut f64, solution_len: usize, impulses: *mut f64, impulses_len: usize,
        new_centres: *mut f64, new_centres_len: usize,
        rule_numbers: *mut u32, rule_numbers_len: usize,
        proposal: *mut u32, proposal_len: usize, started: *mut f64, started_len: usize,
        maxima: *mut f64, maxima_len: usize,
        jacobians: *mut f64, jacobians_len: usize, links: *mut u32, links_len: usize,
        tolerances: *mut f64, tolerances_len: usize, diagonal: *mut f64, diagonal_len: usize,
        residual: *mut f64, residual_len: usize, pending: *mut f64, pending_len: usize,
        direction: *mut f64, direction_len: usize, product: *mut f64, product_len: usize,
        body_impulses: *mut f64, body_impulses_len: usize, pattern: *mut u32, pattern_len: usize,
        order: *mut u32, order_len: usize, values: *mut f64, values_len: usize,
    ) -> u32;

    pub(crate) fn kapitsa_commit_proposal(
        numbers: *mut f64, numbers_len: usize, rows: u32,
        proposal: *mut u32, proposal_len: usize, solution: *const f64, solution_len: usize,
        started: *const f64, started_len: usize,
    ) -> u32;

    pub(crate) fn kapitsa_solve_velocity(
        numbers: *mut f64, numbers_len: usize, words: *const u32, words_len: usize,
        masses: *const f64, masses_len: usize, residuals: *const f64, residuals_len: usize,
        rule_words: *const u32, rule_words_len: usize,
        rule_tolerances: *const f64, rule_tolerances_len: usize,
        rows: u32, bodies: u32, limit: u32, mode: u32, shift: f64,
        solution: *mut f64, solution_len: usize, impulses: *mut f64, impulses_len: usize,
        rule_numbers: *mut u32, rule_numbers_len: usize,
        counts: *mut u32, counts_len: usize, maxima: *mut f64, maxima_len: usize,
        jacobians: *mut f64, jacobians_len: usize, links: *mut u32, links_len: usize,
        tolerances: *mut f64, tolerances_len: usize, diagonal: *mut f64, diagonal_len: usize,
        residual: *mut f64, residual_len: usize, pending: *mut f64, pending_len: usize,
        direction: *mut f64, direction_len: usize, product: *mut f64, product_len: usize,
        body_impulses: *mut f64, body_impulses_len: usize, pattern: *mut u32, pattern_len: usize,
        order: *mut u32, order_len: usize, values: *mut f64, values_len: usize,
    ) -> u32;

    pub(crate) fn kapitsa_solve_groups(
        numbers: *mut f64, numbers_len: usize, words: *const u32, words_len: usize,
        masses: *const f64, masses_len: usize, centres: *const f64, centres_len: usize,
        rule_words: *const u32, rule_words_len: usize,
        rule_tolerances: *const f64, rule_tolerances_len: usize,
        rows: u32, bodies: u32, limit: u32, mode: u32, shift: f64,
        solution: *mut f64, solution_len: usize, impulses: *mut f64, impulses_len: usize,
        new_centres: *mut f64, new_centres_len: usize,
        rule_numbers: *mut u32, rule_numbers_len: usize,
        group_numbers: *mut u32, group_numbers_len: usize,
        group_answers: *mut u32, group_answers_len: usize,
        group_maxima: *mut f64, group_maxima_len: usize,
        group_count: *mut u32, group_count_len: usize,
    ) -> u32;

    pub(crate) fn kapitsa_solve_velocity_groups(
        numbers: *mut f64, numbers_len: usize, words: *const u32, words_len: usize,
        masses: *const f64, masses_len: usize, residuals: *const f64, residuals_len: usize,
        rule_words: *const u32, rule_words_len: usize,
        rule_tolerances: *const f64, rule_tolerances_len: usize,
        rows: u32, bodies: u32, limit: u32, mode: u32, shift: f64,
        solution: *mut f64, solution_len: usize, impulses: *mut f64, impulses_len: usize,
        rule_numbers: *mut u32, rule_numbers_len: usize,
        group_numbers: *mut u32, group_numbers_len: usize,
        group_answers: *mut u32, group_answers_len: usize,
        group_maxima: *mut f64, group_maxima_len: usize,
        group_count: *mut u32, group_count_len: usize,
    ) -> u32;

    pub(crate) fn kapitsa_inverse_spd(
        inertia: *const f64, inertia_len: usize, inverse: *mut f64, inverse_len: usize,
    ) -> u32;

    pub(crate) fn kapitsa_closing_check(
        numbers: *const f64, numbers_len: usize, words: *const u32, words_len: usize,
        masses: *const f64, masses_len: usize, centres: *const f64, centres_len: usize,
        rule_words: *const u32, rule_words_len: usize,
        rule_tolerances: *const f64, rule_tolerances_len: usize, rows: u32, bodies: u32,
        multipliers: *const f64, multipliers_len: usize,
        rule_numbers: *mut u32, rule_numbers_len: usize, verdict: *mut u32, verdict_len: usize,
        gap: *mut f64, gap_len: usize,
        impulses: *mut f64, impulses_len: usize, size_impulses: *mut f64, size_impulses_len: usize,
        values: *mut f64, values_len: usize, sizes: *mut f64, sizes_len: usize,
    ) -> u32;

    pub(crate) fn kapitsa_velocity_closing_check(
        numbers: *const f64, numbers_len: usize, words: *const u32, words_len: usize,
        masses: *const f64, masses_len: usize, residuals: *const f64, residuals_len: usize,
        rule_words: *const u32, rule_words_len: usize,
        rule_tolerances: *const f64, rule_tolerances_len: usize, rows: u32, bodies: u32,
        multipliers: *const f64, multipliers_len: usize,
        rule_numbers: *mut u32, rule_numbers_len: usize, verdict: *mut u32, verdict_len: usize,
        gap: *mut f64, gap_len: usize,
        impulses: *mut f64, impulses_len: usize, size_impulses: *mut f64, size_impulses_len: usize,
        values: *mut f64, values_len: usize, sizes: *mut f64, sizes_len: usize,
    ) -> u32;

    pub(crate) fn kapitsa_closing_margins(
        numbers: *const f64, numbers_len: usize, words: *const u32, words_len: usize,
        masses: *const f64, masses_len: usize, centres: *const f64, centres_len: usize,
        rule_words: *const u32, rule_words_len: usize,
        rule_tolerances: *const f64, rule_tolerances_len: usize, rows: u32, bodies: u32,
        multipliers: *const f64, multipliers_len: usize,
        rule_numbers: *mut u32, rule_numbers_len: usize,
        margin_rows: *mut u32, margin_rows_len: usize, margins: *mut f64, margins_len: usize,
        verdict: *mut u32, verdict_len: usize, gap: *mut f64, gap_len: usize,
        impulses: *mut f64, impulses_len: usize, size_impulses: *mut f64, size_impulses_len: usize,
        values: *mut f64, values_len: usize, sizes: *mut f64, sizes_len: usize,
    ) -> u32;

    pub(crate) fn kapitsa_velocity_closing_margins(
        numbers: *const f64, numbers_len: usize, words: *const u32, words_len: usize,
        masses: *const f64, masses_len: usize, residuals: *const f64, residuals_len: usize,
        rule_words: *const u32, rule_words_len: usize,
        rule_tolerances: *const f64, rule_tolerances_len: usize, rows: u32, bodies: u32,
        multipliers: *const f64, multipliers_len: usize,
        rule_numbers: *mut u32, rule_numbers_len: usize,
        margin_rows: *mut u32, margin_rows_len: usize, margins: *mut f64, margins_len: usize,
        verdict: *mut u32, verdict_len: usize, gap: *mut f64, gap_len: usize,
        impulses: *mut f64, impulses_len: usize, size_impulses: *mut f64, size_impulses_len: usize,
        values: *mut f64, values_len: usize, sizes: *mut f64, sizes_len: usize,
    ) -> u32;

    pub(crate) fn kapitsa_closing_gaps(
        numbers: *const f64, numbers_len: usize, words: *const u32, words_len: usize,
        masses: *const f64, masses_len: usize, centres: *const f64, centres_len: usize,
        rule_words: *const u32, rule_words_len: usize,
        rule_tolerances: *const f64, rule_tolerances_len: usize, rows: u32, bodies: u32,
        multipliers: *const f64, multipliers_len: usize,
        rule_numbers: *mut u32, rule_numbers_len: usize, gaps: *mut f64, gaps_len: usize,
        verdict: *mut u32, verdict_len: usize, gap: *mut f64, gap_len: usize,
        impulses: *mut f64, impulses_len: usize, size_impulses: *mut f64, size_impulses_len: usize,
        values: *mut f64, values_len: usize, sizes: *mut f64, sizes_len: usize,
    ) -> u32;

    pub(crate) fn kapitsa_velocity_closing_gaps(
        numbers: *const f64, numbers_len: usize, words: *const u32, words_len: usize,
        masses: *const f64, masses_len: usize, residuals: *const f64, residuals_len: usize,
        rule_words: *const u32, rule_words_len: usize,
        rule_tolerances: *const f64, rule_tolerances_len: usize, rows: u32, bodies: u32,
        multipliers: *const f64, multipliers_len: usize,
        rule_numbers: *mut u32, rule_numbers_len: usize, gaps: *mut f64, gaps_len: usize,
        verdict: *mut u32, verdict_len: usize, gap: *mut f64, gap_len: usize,
        impulses: *mut f64, impulses_len: usize, size_impulses: *mut f64, size_impulses_len: usize,
        values: *mut f64, values_len: usize, sizes: *mut f64, sizes_len: usize,
    ) -> u32;

    pub(crate) fn kapitsa_first_refused(
        velocities: u32, number: u32,
        numbers: *const f64, numbers_len: usize, words: *const u32, words_len: usize,
        masses: *const f64, masses_len: usize, beside: *const f64, beside_len: usize,
        rule_words: *const u32, rule_words_len: usize,
        rule_tolerances: *const f64, rule_tolerances_len: usize,
        rows: u32, bodies: u32, limit: u32, place: *mut u32, place_len: usize,
    ) -> u32;
}
