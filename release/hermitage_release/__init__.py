"""Makes a release from a checkout. `release/make` is the command."""
