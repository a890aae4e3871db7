"""A machine with a node: it stores inputs, feeds them, and sends what is printed; and when it ticks."""
