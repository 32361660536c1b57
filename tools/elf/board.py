"""Where the parts of the repository are that the tools use."""

import os
import subprocess

from elf.refusal import Refused

TOP = os.path.dirname(os.path.dirname(os.path.dirname(os.path.abspath(__file__))))
LIB = os.path.join(TOP, "lib")


def proved_program(name: str, variable: str) -> str:
    """The path of a proved program: what the variable of the environment says, or the built one."""
    named = os.environ.get(variable)
    if named:
        return named
    handed_out = os.path.join(TOP, "bin", name)  # in what tools/dist makes
    if os.path.exists(handed_out):
        return handed_out
    script, built = os.path.join(TOP, name), os.path.join(TOP, "out", name)
    if not os.path.exists(built):
        # its script proves and builds it, and tells that on standard error
        subprocess.run([script, "--help"], stdout=subprocess.DEVNULL, check=False)
    if not os.path.exists(built):
        raise Refused(
            f"{name} can't be built here: build it elsewhere, and name it by {variable}=PATH"
        )
    return built
