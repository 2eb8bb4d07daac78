//! Says so where the tests of document01.rs are left out.

#[test]
#[cfg_attr(not(original), ignore = "all of document01.rs: built without the original, which CARCARA_SRC names")]
fn tests_against_the_original() {}
