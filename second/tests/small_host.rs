//! What the first example shows: a site that fell behind catches up, and nothing is decided where the
//! host is set up wrongly.

use second::hosts::small_host::run;

#[test]
fn a_site_catches_up_and_a_wrong_n_decides_nothing() {
    let text = run();
    let (three, one) = text.split_once("n 1\n").expect("two votes");
    let given: Vec<&str> = three.lines().filter(|l| l.starts_with("given")).collect();
    assert_eq!(given.len(), 5);
    // packets 5 and 6 are those of the third site, which nothing reaches before the third time
    assert!(given[..2].iter().all(|line| line.ends_with(" - -")));
    assert!(given[2].ends_with(" 7 back 20 7 back 20"));
    for site in 1..=3 {
        assert!(three.contains(&format!("site {site}: read 0, decided 1\n")));
        assert!(one.contains(&format!("site {site}: made 2, opened 2\n")));
        assert!(one.contains(&format!("site {site}: read 2\n")));
    }
    assert!(!one.contains("decided"));
}
