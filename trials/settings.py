"""Settings files."""

import re


def toml_of(values):
    """The text of a settings file with these values."""
    return "".join(f"{key} = {toml_value(value)}\n" for key, value in values.items())


def toml_value(value):
    if isinstance(value, bool):
        return "true" if value else "false"
    return f'"{value}"' if isinstance(value, str) else value


def put_values(file, values):
    """Puts values in place of those of a settings file, or of the comments that stand there for values that are left out."""
    text = file.read_text()
    for key, value in values.items():
        text = re.sub(rf"^(# )?{key} = .*\n", toml_of({key: value}), text, flags=re.MULTILINE)
    file.write_text(text)
