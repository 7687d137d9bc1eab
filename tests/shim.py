"""Compiles a C library with `cc` that a test loads before the system's, by LD_PRELOAD."""
import os, subprocess


def made(folder, name, source):
    """The path of the library."""
    text, library = os.path.join(folder, name + ".c"), os.path.join(folder, name + ".so")
    with open(text, "w") as file:
        file.write(source)
    subprocess.run(["cc", "-O1", "-shared", "-fPIC", "-o", library, text], check=True)
    return library
