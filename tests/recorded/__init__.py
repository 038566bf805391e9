"""What tests/recorders expects of recorders, and how it runs them."""
