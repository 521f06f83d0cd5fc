"""What failures do to requests, by `routed`: sweeps, their parts, and the other machines that take a share."""
