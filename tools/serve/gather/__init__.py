"""Files of a store afterwards: one journal of all rows, the history, and the checks of both."""
