"""C beside the scripts: programs, and libraries that are loaded before the C library's."""
import subprocess


def compiled(source, made, *words):
    """Compiles a file of C, and gives the path of what was made."""
    subprocess.run(["cc", "-O1", "-Wall", "-Wextra", "-Werror", "-o", made, source, *words], check=True)
    return made


def library(source, made):
    """A library by a name that ends with .so, by which the libraries of lib/ tell the program's own calls from others."""
    return compiled(source, made, "-shared", "-fPIC", "-ldl")
