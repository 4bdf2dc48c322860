"""What the scripts beside share: numbers as words of a line, and a text, or all texts of a program, written in the folder they are run in."""
import os


def words(numbers):
    return "".join(f" {b}" for b in numbers)


def write(path, lines):
    os.makedirs(os.path.dirname(path), exist_ok=True)
    with open(path, "w") as out:
        out.write("".join(line + "\n" for line in lines))


def write_program(program, made):
    """The files of a program's cases, which it reads in turn, its args and what it is to print. A file must fit the room that the program has."""
    expected = []
    for file, cases in made.items():
        cases = list(cases())
        lines = [c.line() for c in cases]
        assert sum(len(line) + 1 for line in lines) <= 65536
        write(f"crates/{program}/data/{file}", lines)
        expected += [c.printed() for c in cases]
    write(f"crates/{program}/args", made)
    write(f"crates/{program}/stdout", expected)
