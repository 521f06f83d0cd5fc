"""What tests/texts, tests/contracts and tests/mutants check without a built program."""
