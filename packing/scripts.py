"""The scripts in tools/ that make something in a folder, and the tools that they take beside the kit."""
import shutil
import subprocess
import sys

from packing.repository import ROOT, Refused


def lacking(packages):
    """Returns which tool is missing here, as a sentence, or nothing. Each is given with the package of Debian that has it."""
    for tool, package in packages.items():
        if shutil.which(tool) is None:
            return f"{tool} is not on the PATH: Debian's package {package} has it"
    return ""


def first_line(*words):
    """Returns the first line that a command prints, or None where it is not there or fails."""
    if shutil.which(words[0]) is None:
        return None
    asked = subprocess.run(words, stdout=subprocess.PIPE, encoding="utf-8")
    return asked.stdout.partition("\n")[0].strip() if asked.returncode == 0 else None


def run(names, folder, title):
    """Has scripts make something in a folder, one after the other."""
    for name in names:
        if subprocess.run([sys.executable, f"{ROOT}/tools/{name}", folder]).returncode != 0:
            raise Refused(f"{title[0].lower()}{title[1:]} could not be made")


def prints(words, wanted, **how):
    """Returns whether a command ends well, and prints this."""
    how = {"stdin": subprocess.DEVNULL, "stdout": subprocess.PIPE, "encoding": "utf-8", **how}
    ran = subprocess.run(words, **how)
    return (ran.returncode, ran.stdout) == (0, wanted)
