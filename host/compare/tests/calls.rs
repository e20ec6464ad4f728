//! Nothing of the C interface is left out of the comparison or of the benchmark.
#![cfg(not(oracle_absent))]

use std::collections::BTreeSet;

/// The differential run compares, and the benchmark measures, each function that is declared, under its name, and whole
/// walks; but not the two of single floats, which are run on all floats. That what is declared is what is proved, the
/// library's own test `interface` checks.
#[test]
fn each_function_is_compared_and_measured() {
    let names = safeteal::ffi::DECLARED.iter().map(|(name, _)| *name);
    let mut declared: BTreeSet<String> = names.map(str::to_owned).collect();
    for single in ["safeteal_pixel", "safeteal_stored"] {
        assert!(declared.remove(single), "{single}");
    }
    let named = |name: &str| format!("safeteal_{name}");
    declared.insert(named("walks"));
    let compared = compare::check::CALLS.iter().map(|call| named(call.name));
    assert_eq!(compared.collect::<BTreeSet<_>>(), declared);
    let workloads = compare::bench::CALLS.iter().copied().flatten();
    let measured = workloads.map(|workload| named(workload.call));
    assert_eq!(measured.collect::<BTreeSet<_>>(), declared);
    let taken = compare::names::calls().into_iter();
    let taken: BTreeSet<_> = taken.map(|call| named(&call)).collect();
    assert_eq!(taken, declared);
}
