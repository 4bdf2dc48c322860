"""Writes a list of numbers as a static of a file of its own. Each file says which script had it written. A static lies in memory that is only read, where a
const would be written out on the stack at each use."""


def write_table(crates, crate, script, module, name, title, numbers):
    """The static module::NAME of the crate; the title describes the numbers."""
    with open(f"{crates}/{crate}/src/{module}.rt", "w", encoding="utf-8") as f:
        f.write(
            f"// Written by {script}. A static lies in memory that is only read, where a const would be written out on the stack at each use.\n\n"
            f"// {title}\n"
            f"pub static {name}: [u64; {len(numbers)}] = [{', '.join(map(str, numbers))}];\n"
        )
