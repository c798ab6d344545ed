"""What is said where there is no program for a machine, and what of chipfire works there. ./chipfire says the same."""
import contents

WORKS = (
    "here work the page release/chipfire.html in a browser, the package release/chipfire-*.tgz in Node (js/README.md), "
    "and in Python what needs no program"
)


def said():
    """Returns the sentence."""
    names = " or ".join(it.name for it in contents.MACHINES)
    return f"it is for Linux on {names}, and this is {contents.system()}: {WORKS}"
