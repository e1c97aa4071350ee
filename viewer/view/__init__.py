"""The pages of hprof_view.py: they show what `hprof` answers, and read no dump themselves.

The Python package hprof asks the questions and reads the answers. It is taken from clients/python beside the viewer, or else as it is
installed.
"""

import sys
from pathlib import Path

BESIDE = Path(__file__).resolve().parents[2] / "clients" / "python"
if (BESIDE / "hprof" / "__init__.py").is_file():
    sys.path.insert(0, str(BESIDE))
