//! Stand-in: the reactive tree. Nothing of it is named by the given files.
