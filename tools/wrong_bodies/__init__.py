"""Wrong bodies and their twins: their form, the functions that they change, and how they are tried.
tools/wrong and tools/dear_edits share it."""
