"""What a program is run on: words, files, and a script."""

from dataclasses import dataclass, field


@dataclass
class Case:
    """The words, the files by name, the records of the script, and what the streams are.

    A file whose bytes are None is a folder. `streams` is `full` where standard output takes
    no byte, `folder` where standard input is a folder, `closed` where it is closed, else nothing.
    """

    words: list = field(default_factory=list)
    files: dict = field(default_factory=dict)
    records: list = field(default_factory=list)
    streams: str = ""

    def script(self):
        return b"".join(self.records)


def line(fields, end="\n", quoted=False):
    """A record of these fields, each between quotes where it needs them or all should be."""
    out = []
    for text in fields:
        if quoted or any(c in text for c in ',"\r\n'):
            text = '"' + text.replace('"', '""') + '"'
        out.append(text)
    return (",".join(out) + end).encode()
