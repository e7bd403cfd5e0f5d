"""The top of the checkout, and the programs that the drawn tests run."""
import os

TOP = os.path.dirname(os.path.dirname(os.path.dirname(os.path.abspath(__file__))))


def program(name: str) -> str:
    """The program that $NAME names, or else the one that this checkout has built."""
    built = os.path.join(TOP, "crates", name, "out", name)
    return os.path.abspath(os.environ.get(name.upper()) or built)
