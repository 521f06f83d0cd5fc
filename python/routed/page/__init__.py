"""`routed-tools page`: a running server in a browser."""
