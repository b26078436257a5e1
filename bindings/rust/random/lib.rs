//! This package has tests alone: `tests/transactions.rs`.
