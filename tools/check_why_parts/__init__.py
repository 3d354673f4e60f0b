"""The parts of tools/check-why, which checks a printed derivation."""
