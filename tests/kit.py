"""Where the Rattle kit is."""

import os
import shutil
from pathlib import Path


def home():
    return Path(os.environ.get("RATTLE_HOME") or Path(shutil.which("rt")).resolve().parent.parent)
