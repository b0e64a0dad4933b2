"""Finds the program `ask`."""
import os
import subprocess

TOP = os.path.dirname(os.path.dirname(os.path.realpath(__file__)))


def program():
    """Gives the proved program where it is built, and else that which is built as it stands, unproved."""
    os.chdir(TOP)
    for words in ([".ci/program", "--kept", "ask"], [".ci/unproved", "ask"]):
        found = subprocess.run(words, stdout=subprocess.PIPE, text=True)
        if found.returncode == 0:
            break
    found.check_returncode()
    return found.stdout.strip()
