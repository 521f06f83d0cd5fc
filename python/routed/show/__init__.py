"""`routed-tools show` and `book-report`: tables of a network and of a book."""
