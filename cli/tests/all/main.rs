//! The command as a tester meets it: what it prints, beside what the proved programs print; its exit
//! statuses and what it tells on standard error; its examples. The programs must be in target/bin.

mod examples;
mod faults;
mod process;
mod statuses;
mod vectors;
