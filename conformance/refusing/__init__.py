"""The parts of conformance/edits."""
