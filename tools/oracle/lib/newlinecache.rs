//! Stand-in for newlinecache.rs, of which only the name is asked for.

pub struct NewlineCache;
