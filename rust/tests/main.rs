//! All tests in one program: it is linked once, and tests of all files run side by side.

mod campaigns;
mod common;
mod corpus;
mod engine_blocking;
mod engine_campaign;
mod engine_check;
mod engine_comparisons;
mod engine_decide;
mod engine_pddl;
mod engine_place;
mod engine_plan;
mod engine_read;
mod engine_rewrite;
mod engine_rig;
mod engine_step;
mod examples;
mod harness;
mod listing_program;
mod outcomes;
mod pddl_reader;
mod pddl_text;
mod placements;
mod properties;
mod real_plans;
mod refusals;
mod tool;
mod tool_check;
mod tool_plan;
mod tool_readme;
mod tool_rewrite;
mod tool_rig;
mod tool_script;
mod tool_timetable;
mod tool_use;
mod tool_why;

/// A file that is not named above would not be run.
#[test]
fn every_file_of_tests_is_named() {
    let folder = concat!(env!("CARGO_MANIFEST_DIR"), "/tests");
    let entries = std::fs::read_dir(folder).expect("the tests");
    let names = entries.map(|entry| entry.expect("a file").file_name());
    let names = names.filter_map(|name| name.into_string().ok());
    let names: Vec<String> = names
        .filter_map(|name| name.strip_suffix(".rs").map(String::from))
        .collect();
    assert!(names.len() > 10, "{names:?}");
    for name in names.iter().filter(|name| *name != "main") {
        let named = include_str!("main.rs").contains(&format!("mod {name};"));
        assert!(named, "{name}.rs");
    }
}
