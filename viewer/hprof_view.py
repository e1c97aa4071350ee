#!/usr/bin/env python3
"""Shows a Java heap dump as pages in a browser: hprof_view.py PART.. or hprof_view.py --diff OLD NEW."""

import sys

if sys.version_info < (3, 8):
    sys.exit("hprof_view: needs Python 3.8 or later")

try:
    from view.command import main
except ModuleNotFoundError as missing:
    if missing.name != "hprof":
        raise
    sys.exit("hprof_view: needs the Python package hprof: clients/python beside the viewer, or pip install clients/python")

if __name__ == "__main__":
    main()
