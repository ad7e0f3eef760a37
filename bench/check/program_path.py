"""The program that a script is to run."""
import os
import sys


VECTORS = "`rt run` in crates/fast_check_vectors builds one"


def program_path(program, how=None):
    """The whole path of a program. Where there is none, the script says so in one line, with how one is built, and ends with status 2."""
    if not os.path.isfile(program) or not os.access(program, os.X_OK):
        name = os.path.basename(program)
        if how is None:
            how = f"`rt run` in crates/{name} builds one" if name.startswith("fast_check_") else "./fast-check builds one, and tools/unproved one without any proof"
        print(f"{os.path.basename(sys.argv[0])}: there is no program {program}; {how}", file=sys.stderr)
        sys.exit(2)
    return os.path.abspath(program)
