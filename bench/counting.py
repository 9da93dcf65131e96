"""How a run of the program is counted: its instructions, by callgrind.

Copies and fills are counted as vector instructions: the C library's `rep movsb` and `rep stosb`, which the counter would
count byte by byte, are turned off."""

import os
import re
import subprocess
import tempfile
from pathlib import Path

VECTORS = "glibc.cpu.x86_rep_movsb_threshold=1000000000:glibc.cpu.x86_rep_stosb_threshold=1000000000"


def counted(command, work):
    """The instructions of a run of the command."""
    tool = ["valgrind", "--tool=callgrind", f"--callgrind-out-file={work}/counts"]
    run = subprocess.run(tool + command, env={**os.environ, "GLIBC_TUNABLES": VECTORS}, stdout=subprocess.DEVNULL,
                         stderr=subprocess.PIPE, text=True, check=True)
    return int(re.search(r"Collected : (\d+)", run.stderr).group(1))


def written(workload, work):
    """A folder for the workload, its configuration and its script."""
    folder = Path(tempfile.mkdtemp(dir=work))
    script, config = folder / "script", folder / "config"
    script.write_text("".join(line + "\n" for line in workload.lines))
    config.write_text(workload.config)
    return folder, str(config), str(script)
