// Clocks are not part of the comparison.
