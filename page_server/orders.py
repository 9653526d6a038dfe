"""What the page may ask of nbhd."""

import json

from .errors import Refusal

OPTION_CHARACTERS = 8_000
# The options that a command may have several times: their value is a list.
REPEATED = {"forbid"}
# The commands that the page may ask for, each with its options.
COMMANDS = {
    "check": {"ids"},
    "trace": {"ids", "ring"},
    "explain": {"ids", "ring", "place"},
    "judge": {"ids", "near", "far", "problem", "forbid"},
    "table": {"ids"},
    "apply": {"ring"},
    "audit": {"problem", "forbid"},
    "migrate": set(),
}
# The option of each of them.
FORM = {"format"}


def words_and_text(body):
    """The words and the standard input of nbhd for the body of a request."""
    try:
        asked = json.loads(body)
        command, options, text = asked["command"], asked["options"], asked["text"]
        if command not in COMMANDS or not set(options) <= COMMANDS[command] | FORM or not isinstance(text, str):
            raise ValueError
        words = [command]
        for name, value in options.items():
            if isinstance(value, list) != (name in REPEATED):
                raise ValueError
            values = value if name in REPEATED else [value]
            # Without a value the command would be asked something else.
            if not values or not all(isinstance(one, str) and one.isprintable() for one in values):
                raise ValueError
            # Each value counts one more, as many empty ones are long too.
            if sum(len(one) + 1 for one in values) > OPTION_CHARACTERS:
                raise ValueError
            # One word with the option's name, so that no value is taken for an option. Whether the value is right, nbhd says.
            words += [f"--{name}={one}" for one in values]
        "".join(words).encode()
        return words, text.encode("utf-8", "surrogatepass")
    except (ValueError, KeyError, TypeError, AttributeError, RecursionError):
        raise Refusal(400, "the body is not a command with its options and a text") from None
