"""Tests of the package. FLUENT_LIBRARY names libfluent.so, or './build libfluent' has built it."""
import os
from pathlib import Path

TOP = Path(__file__).resolve().parents[3]
os.environ.setdefault("FLUENT_LIBRARY", str(TOP / "crates/fluent_c/out/libfluent.so"))
LIBRARY = Path(os.environ["FLUENT_LIBRARY"])
