"""The program that the measures of this folder run."""
import os
import subprocess

ROOT = os.path.dirname(os.path.dirname(os.path.realpath(__file__)))


def find_program():
    """The path of the program that FACE names, or else of the one that bin/face runs, which is built first where it must be."""
    face = os.environ.get("FACE")
    if not face:
        subprocess.run([f"{ROOT}/bin/face", "help"], stdout=subprocess.DEVNULL, stdin=subprocess.DEVNULL, check=False)
        face = subprocess.check_output([f"{ROOT}/bin/which"], text=True).strip()
    return os.path.realpath(face)
