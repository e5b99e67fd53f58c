//! Stand-in: dominators. Nothing of it is named by the given files.
