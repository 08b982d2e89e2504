//! Carrier rounds of least flowtime: a safe interface to the carrier round planner, which is written in Rattle and proved.
//!
//! A [`Sheet`] holds bytes that the planner accepts; [`Planner::search`] gives an [`Answer`], with a [`Plan`] where there is one;
//! [`Planner::gate_board`] gives a [`GateBoard`]: the answer, and which car comes to which gate, and when;
//! [`Sheet::check`] says whether tasks and paths from elsewhere are a plan. What a call declines has a [`Cause`], document 01's
//! number and words; of a refused sheet a [`Refusal`] also says where. No input panics. [`calls`] has the exported calls as they
//! are.
//!
//! ```
//! use carrier_planner::{Answer, Carrier, Planner, Sheet};
//!
//! let sheet = Sheet::builder(3, 2)
//!     .horizon(10)
//!     .block(1, 1)
//!     .carrier(0, 0)
//!     .carrier(2, 0)
//!     .task([(2, 1), (0, 0)]) // by way of column 2, row 1, to the gate in column 0, row 0
//!     .task([(2, 0)])
//!     .build()?;
//! match Planner::new().search(&sheet)? {
//!     Answer::Plan { plan, .. } => println!("carrier 0 arrives at {:?}", plan.finish(Carrier(0))),
//!     Answer::NoPlan { .. } => println!("there is no plan"),
//!     Answer::Spent { bound, .. } => println!("not found; no plan has a flowtime below {bound}"),
//! }
//! # Ok::<(), Box<dyn std::error::Error>>(())
//! ```

#![deny(unsafe_code)]

mod board;
#[allow(unsafe_code)]
pub mod calls;
mod cause;
mod fault;
mod lane;
mod layout;
mod parts;
mod plan;
mod planner;
mod sheet;

pub use board::{GateBoard, GateLine};
pub use cause::Cause;
pub use fault::{Fault, Field, Refusal, Unfit};
pub use lane::Direction;
pub use layout::Pair;
pub use parts::{first_collision, least_assignment, Assignment, Collision, Constraint, LeastPath, BARRED};
pub use plan::{Answer, NotAPlan, Plan};
pub use planner::Planner;
pub use sheet::{Carrier, Place, Sheet, SheetBuilder, Task, MOST_CARRIERS};
