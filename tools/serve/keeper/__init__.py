"""What starts the machines of a store, starts them again where they end, and ends them in order."""
