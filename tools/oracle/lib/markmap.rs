//! Stand-in for markmap.rs, of which nothing is asked for.
