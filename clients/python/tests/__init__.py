"""Tests of the package. `clients/python/test` runs them."""
