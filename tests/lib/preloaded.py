"""Libraries that are loaded before the C library: each is a file of C beside this one, and is built with cc."""
import pathlib
import subprocess

HERE = pathlib.Path(__file__).resolve().parent


def built(name, folder):
    """The path of the library of NAME.c, which is built in a folder."""
    library = pathlib.Path(folder).resolve() / f"{name}.so"
    subprocess.run(["cc", "-shared", "-fPIC", "-o", library, HERE / f"{name}.c", "-ldl"], check=True)
    return str(library)
