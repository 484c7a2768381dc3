"""The help of a built program, of which man_page and completion are made."""
import re
import subprocess


def help_of(bpfrt, *words):
    """What the program says of itself under its own name, whatever its file is called."""
    return subprocess.run(["bpfrt", *words, "--help"], executable=bpfrt, capture_output=True, text=True, timeout=60).stderr


def commands_of(bpfrt):
    """The names of its commands, but help, in the order of its help."""
    listed = help_of(bpfrt).split("Commands:")[1].split("Options:")[0]
    return [it for it in re.findall(r"^  ([a-z]+)  +\S", listed, re.M) if it != "help"]
