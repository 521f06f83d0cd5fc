"""`routed-tools ask`: one request by names and units, and why it has no route or a dear one."""
