"""The tests of the package: python/tests/run runs them."""
