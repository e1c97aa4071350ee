"""The tests of the viewer: `viewer/test` runs them."""

import view  # noqa: F401  It finds the package hprof.
