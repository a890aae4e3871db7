"""What talks to redis clients: their protocol, their commands, the clients of the store, the history."""
