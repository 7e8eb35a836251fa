//! The tests of cassowary 0.3.0 stand in `tests`; there is nothing here.
