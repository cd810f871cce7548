//! The build's own checks can fail: a constant that differs, a definition that
//! is missing or double, a text to change that is not there exactly once.

#[path = "../../source.rs"]
#[allow(dead_code)]
mod source;

const ORIGINAL: &str =
    "/// A size.\npub const SIZE: usize = 32 * 1024;\npub const SIZES: u8 = 1;\n";

#[test]
fn a_definition_is_found_by_its_whole_name() {
    assert_eq!(
        source::definition(ORIGINAL, "SIZE").unwrap(),
        ": usize = 32 * 1024;"
    );
    assert_eq!(
        source::definition("    pub(crate) type T = u8;\n", "T").unwrap(),
        "= u8;"
    );
    assert!(source::definition(ORIGINAL, "SIZ").is_err());
    assert!(source::definition(&ORIGINAL.repeat(2), "SIZE").is_err());
}

#[test]
fn definitions_that_differ_are_told() {
    let same = "    pub(crate) const SIZE: usize = 32 * 1024;\n";
    assert_eq!(source::same_definition(ORIGINAL, same, "SIZE"), Ok(()));
    let error = source::same_definition(ORIGINAL, &same.replace("32", "48"), "SIZE");
    assert!(error.unwrap_err().contains("48 * 1024"));
    assert!(source::same_definition(ORIGINAL, "", "SIZE").is_err());
}

#[test]
fn a_change_has_exactly_one_place() {
    assert_eq!(source::changed("a b c", &[("b", "x")]).unwrap(), "a x c");
    assert!(source::changed("a b b", &[("b", "x")]).is_err());
    assert!(source::changed("a b c", &[("d", "x")]).is_err());
}
