// Counters are not part of the comparison.
