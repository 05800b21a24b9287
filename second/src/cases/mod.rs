//! The generator of the test programs' inputs and expected outputs, and the cases that it writes.

pub mod bundle_cases;
pub mod call_cases;
pub mod calls;
pub mod edge_cases;
pub mod fault_cases;
pub mod fit_cases;
pub mod generate;
pub mod jump_cases;
pub mod jump_runs;
pub mod kept_cases;
pub mod list_cases;
pub mod module_cases;
pub mod order_cases;
pub mod sample_bundles;
pub mod sample_setups;
pub mod samples;
pub mod stage_cases;
pub mod valid_bundles;
pub mod valley_cases;
