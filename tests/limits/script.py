"""A script and its answers, written side by side: no command stands here without its answer.

The format is that of docs/SCRIPTS.md. Lines and texts are held as strings in which each character
is one byte.
"""

_script = []
_answers = []


def section(number, title):
    _script.append(f"#\n# Section {number}. {title}\n#\n")


def note(comment):
    """A comment on the commands that follow."""
    passed_over(f"# {comment}")


def passed_over(*lines):
    """Lines that start with a number sign, which answer nothing."""
    _script.extend(line + "\n" for line in lines)


def say(command, answer):
    """A command, and the answer that the papers give it."""
    _script.append(command + "\n")
    _answers.append(answer + "\n")


def ok(*commands):
    """Commands that answer ok and no number."""
    for command in commands:
        say(command, "ok")


def refused(number, place, *commands):
    """Commands that are all refused by this number at this place."""
    for command in commands:
        say(command, f"refused {number} {place}")


def no_command(*lines):
    """Lines that are no command."""
    for line in lines:
        say(line, "?")


def text(content):
    """The text register becomes these bytes, which are no lines of the script."""
    say(f"text {len(content)}\n{content}", "ok")


def text_without_line_end(content, command, answer):
    """A text whose bytes a command follows at once: it is no text, and the command is run."""
    say(f"text {len(content)}\n{content}{command}", f"?\n{answer}")


def shown(content):
    """The text register holds these bytes."""
    say("show", f"text {len(content)}\n{content}")


def written():
    """The bytes of the script and of its answers."""
    return tuple("".join(parts).encode("latin-1") for parts in (_script, _answers))
