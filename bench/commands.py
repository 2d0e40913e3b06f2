"""An input for the benches: the commands of examples/every_command.words, again and again."""
import pathlib

EVERY_COMMAND = pathlib.Path(__file__).parent.parent / "examples/every_command.words"

# The longest input that `svga words` takes.
MOST = 128 * 1024 * 1024


def write_commands(path):
    """Writes whole commands to a file, as many as fit into MOST bytes. Answers the number of bytes."""
    block = EVERY_COMMAND.read_bytes()
    count = MOST // len(block)
    with open(path, "wb") as file:
        for _ in range(count):
            file.write(block)
    return count * len(block)
