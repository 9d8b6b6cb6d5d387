//! Stands in for the scheduler's own root: the money side alone, over finished dates. The
//! definitions of `Status`, `Scheduled`, `Schedule` and `MAX_SPAN` are taken from the sources.
#![allow(dead_code)]

pub mod baseline;
pub mod budget;
pub mod costs;
pub mod earned;
pub mod usage;

pub use baseline::{Variance, variances};
pub use budget::{BudgetLine, budget, funding, spending_by_month};
pub use costs::{ActualByKind, Cost, actual_by_kind, costs, project_cost, spending};
pub use earned::{
    Earned, PeriodPoint, earned_value, performance, period_points, planned_curve, project_earned,
};

use mkperth_core::Date;

include!("definitions.rs");
