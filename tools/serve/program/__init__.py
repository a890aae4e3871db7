"""The program as a child: one process for each node and each client, lines in and lines out."""
