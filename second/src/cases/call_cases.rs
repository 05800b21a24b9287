//! Scripts of calls: each call with each number that it can return, the marked cases, the edges,
//! the order of the tests, and random lists; all with jump off. After them come stations that jump
//! (`jump_cases.rs`), and bundles with several faults (`fault_cases.rs`). Where 01 fixes a number it
//! is stated by hand in the files of these cases.

use crate::cases::calls::Calls;
use crate::cases::edge_cases::edge_cases;
use crate::cases::fault_cases::fault_cases;
use crate::cases::fit_cases::fit_cases;
use crate::cases::jump_cases::jump_cases;
use crate::cases::kept_cases::kept_cases;
use crate::cases::list_cases::off_lists;
use crate::cases::module_cases::module_cases;
use crate::cases::order_cases::order_cases;
use crate::cases::stage_cases::stage_cases;
use crate::tester::author::Author;

/// Records the calls behind what an author has recorded.
pub fn calls(author: Author) -> Author {
    let mut calls = Calls { author };
    module_cases(&mut calls);
    stage_cases(&mut calls);
    fit_cases(&mut calls);
    kept_cases(&mut calls);
    order_cases(&mut calls);
    edge_cases(&mut calls);
    off_lists(&mut calls);
    jump_cases(&mut calls);
    fault_cases(&mut calls);
    calls.author
}
