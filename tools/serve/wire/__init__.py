"""Mail between machines: frames, connections, who is at their other end, and faults for tests."""
