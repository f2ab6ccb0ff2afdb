"""What a program says of itself: its help, and the parts of it."""
import re
import subprocess


def said(program, *words):
    """What a program prints when it is called with these words."""
    ran = subprocess.run([program, *words], stdin=subprocess.DEVNULL, capture_output=True, text=True)
    return ran.stdout if ran.returncode == 0 else f"status {ran.returncode}: {ran.stderr}"


def part(text, head):
    """The lines of a program's help below this head."""
    below = text.partition(f"\n{head}:\n")[2].partition("\n\n")[0]
    return [line.strip() for line in below.split("\n") if line.strip()]


def subcommands(text):
    """The subcommands that a program's help lists."""
    return re.findall(r"^  (\S+)", text.partition("\nCommands:\n")[2].partition("\n\n")[0], re.MULTILINE)


def option(words):
    """An option as its spellings and the name of its value, as `--uid N`."""
    words = re.sub(r"[<>]", "", words)
    return re.split(r"\s{2,}", words)[0].replace(", ", " ")
