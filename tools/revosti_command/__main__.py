"""Runs the command: `python3 tools/revosti_command COMMAND`."""

import signal
import sys
from pathlib import Path

if signal.getsignal(signal.SIGINT) is not signal.SIG_IGN:
    signal.signal(signal.SIGINT, signal.SIG_DFL)  # until main is there to say that it is stopped
if sys.version_info < (3, 10):
    print("revosti: python3 is too old; it needs 3.10 or newer", file=sys.stderr)
    sys.exit(3)
sys.dont_write_bytecode = True
sys.path[0] = str(Path(__file__).resolve().parent.parent)

from revosti_command.main import main  # noqa: E402

sys.exit(main())
