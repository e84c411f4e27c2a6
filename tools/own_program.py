"""Where the program and the launcher are: of an installed copy beside its tools, of a clone where `./controller build` puts it."""
import os

TOP = os.path.dirname(os.path.dirname(os.path.realpath(__file__)))
INSTALLED, BUILT = f"{TOP}/jenkinsd", f"{TOP}/crates/jenkinsd/out/jenkinsd"
PROGRAM = INSTALLED if os.path.exists(INSTALLED) else BUILT
# What people type to call the launcher.
NAME = "controller" if os.path.exists(INSTALLED) else "./controller"
