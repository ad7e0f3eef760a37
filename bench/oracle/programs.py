"""Where the repository and the built programs stand."""
import os

TOP = os.path.dirname(os.path.dirname(os.path.dirname(os.path.abspath(__file__))))


def built(crate):
    """The program of a crate."""
    return os.path.join(TOP, "crates", crate, "out", crate)


def fast_check():
    """The program `fast-check`."""
    return built("fast_check_cli")


def transform():
    """A program that has the command `transform`: the whole one where it is built, else the smaller one."""
    return fast_check() if os.path.exists(fast_check()) else built("fast_check_program_transform_cli")
