#!/usr/bin/env python3
"""Checks that cases, rows and tables are those that the quick scripts in conformance/ write."""

import pathlib
import subprocess
import sys

CONFORMANCE = pathlib.Path(__file__).resolve().parent.parent / "conformance"


def main():
    """Runs each script, and returns the exit status."""
    scripts = sorted(CONFORMANCE.glob("*_of_*"))
    failed = [path.name for path in scripts
              if subprocess.run([sys.executable, path, "--check"], check=False).returncode]
    return 1 if failed or not scripts else 0


if __name__ == "__main__":
    sys.exit(main())
