"""Builds the plain program of bench/plain, if cargo is there."""
import os
import shutil
import subprocess

FOLDER = os.path.join(os.path.dirname(os.path.realpath(__file__)), "plain")


def plain_program():
    """The path of the plain program, built from its sources as they are now, or None if there is no cargo."""
    if not shutil.which("cargo"):
        return None
    built = os.path.join(os.environ.get("CARGO_TARGET_DIR") or os.path.join(FOLDER, "target"), "release", "plain")
    # Cargo has to stand in the folder: it reads .cargo/config.toml from where it stands.
    subprocess.run(["cargo", "build", "--release", "--offline", "--quiet"], cwd=FOLDER, stdin=subprocess.DEVNULL, check=True)
    return os.path.abspath(os.path.join(FOLDER, built))
