#!/usr/bin/env python3
"""The pictures of the README are what docs/draw.py draws, from the names of the crates and from what `spans` prints."""
import os
import subprocess
import sys

from programs import TOP

ended = subprocess.run([sys.executable, "-B", os.path.join(TOP, "docs", "draw.py"), "--check"])
print(f"pictures: {'not ' if ended.returncode else ''}as they are drawn")
sys.exit(ended.returncode)
