"""What `routed` has to write, computed from the formats; wrong programs made of it; and the streams to try them on."""
