"""A replay, from text to text."""

from .events import run
from .lines import TextFault
from .report import WIRE, line_text
from .script import read


def replay(text, wire):
    """The text of the report, or the line of the text's fault; and the status."""
    try:
        script = read(text)
    except TextFault as fault:
        return f'{fault}\n', 3
    lines, is_halted = run(script)
    reported = [line_text(script.scenario, line) for line in lines if wire or not isinstance(line, WIRE)]
    return ''.join(reported), 7 if is_halted else 0
