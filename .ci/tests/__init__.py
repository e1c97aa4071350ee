"""Tests of install and of the completions of shells. `.ci/test` runs them."""
