"""Proves crates/bajofeki_c and builds its archive over the libraries that lie in crates/*/out, as `rt ci` leaves them there. `rt lib` trusts
none of those, and proves them once more."""
import os
import subprocess
import sys
from pathlib import Path

KIT = Path(subprocess.run(["rt", "doc"], capture_output=True, text=True, check=True).stdout.strip()).parent
CRATE = Path(__file__).resolve().parent.parent / "crates/bajofeki_c"
sys.path.append(str(KIT / "bin"))
sys.dont_write_bytecode = True
import rtlib

os.chdir(CRATE)
# An rt ci that still runs puts back what lay in out/incremental.
rtlib.KEPT = ["--incremental", "out/of_archive"]
sys.exit(rtlib.Crate(str(CRATE), str(CRATE.parent.parent), {}).build_static([]))
