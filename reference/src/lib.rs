//! A second implementation of the lane run-time, written from documents alone:
//! the scope document, the requests that changed it, the decisions on its open
//! points (docs/DECISIONS.md) and the page on scripts (docs/SCRIPTS.md). It
//! exists to be compared with the first one, and to say how many instructions
//! the same work takes in ordinary Rust.
//!
//! | module     | what it holds                                              |
//! |------------|------------------------------------------------------------|
//! | `refusal`  | the refusal table                                          |
//! | `check`    | the check of a block                                       |
//! | `network`  | processes, channels and code, and the rules they must meet |
//! | `file`     | reading and writing lane files                             |
//! | `lane`     | a network with its state, and what makes it sound          |
//! | `calls`    | pick, feed, burst, close and take                          |
//! | `relief`   | rings of waiting processes                                 |
//! | `schedule` | a run and the driver                                       |
//! | `bench`    | the bench and its listing                                  |
//! | `script`   | the lines of a script of calls                             |
//! | `replay`   | replaying such a script                                    |
//! | `plain`    | the plain order, with channels that never fill             |
//! | `board`    | a lane and all that happened on it                         |
//! | `limit`    | how many picks a drive can need                            |
//! | `random`   | random numbers that can be repeated                        |
//! | `plans`    | random networks                                            |
//! | `programs` | random programs for their processes                        |
//! | `gen`      | random cases for the bench                                 |
//! | `damage`   | damaged files, inputs and picks                            |
//! | `coverage` | what a comparison has met                                  |
//! | `scripts`  | random scripts of calls                                    |
//! | `clauses`  | edits that make a lane unsound, for each clause of that    |
//! | `odd`      | edits after which it is sound, but odd                     |
//! | `bursts`   | bursts for scripts, and how much of one must go in         |
//! | `met`      | what scripts have met                                      |
//! | `fillings` | of these, the cases of the most that channels have held    |
//! | `tails`    | of these, the cases of rings and of tails that lead there  |

pub mod bench;
pub mod board;
pub mod bursts;
pub mod calls;
pub mod check;
pub mod clauses;
pub mod coverage;
pub mod damage;
pub mod file;
pub mod fillings;
pub mod gen;
pub mod lane;
pub mod limit;
pub mod met;
pub mod network;
pub mod odd;
pub mod plain;
pub mod plans;
pub mod programs;
pub mod random;
pub mod refusal;
pub mod relief;
pub mod replay;
pub mod schedule;
pub mod script;
pub mod scripts;
pub mod tails;
