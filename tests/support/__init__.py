"""What the tests share; the path of the tools is set here."""

import sys
from pathlib import Path

ROOT = Path(__file__).resolve().parents[2]
EXAMPLES = ROOT / "examples"

sys.dont_write_bytecode = True
sys.path.insert(0, str(ROOT / "tools"))
