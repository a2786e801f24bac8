"""A table of certificates, and the edits that make its rows.

A file of the table has these lines:

    over PATH           the model that follows is this file, from the top of the repository
    | TEXT              a line of a certificate, to its last
    LINE EDIT..         a row: the certificate edited so has LINE as its first bad line, or is valid where LINE is 0

Edits are parted by tabs and made one after the other:

    same                nothing is changed
    put N TEXT          TEXT stands in the place of line N
    drop N              without line N
    double N            line N stands twice
    move N M            line N is taken out, and stands as line M
    cut B               the first B bytes alone
"""


def edited(text, edit):
    """A text after an edit."""
    word, _, rest = edit.partition(" ")
    if word == "same":
        return text
    if word == "cut":
        return text[:int(rest)]
    lines = text.split("\n")[:-1]
    number, _, rest = rest.partition(" ")
    at = int(number) - 1
    if word == "put":
        lines[at] = rest
    elif word == "drop":
        del lines[at]
    elif word == "double":
        lines.insert(at, lines[at])
    elif word == "move":
        lines.insert(int(rest) - 1, lines.pop(at))
    else:
        raise ValueError(edit)
    return "".join(line + "\n" for line in lines)


def all_edited(text, edits):
    """A text after edits, which are parted by tabs."""
    for edit in edits.split("\t"):
        text = edited(text, edit)
    return text


def rows(path):
    """The rows of a table: the path of the model, the text, the edits, and what is to be written."""
    model, certificate, ended = None, [], False
    with open(path, encoding="utf-8") as table:
        for line in table:
            line = line.rstrip("\n")
            if line.startswith("over "):
                model = line[5:]
            elif line.startswith("| "):
                certificate = [line[2:]] if ended else certificate + [line[2:]]
                ended = False
            elif line:
                ended = True
                bad, _, edits = line.partition(" ")
                text = "".join(l + "\n" for l in certificate)
                yield model, all_edited(text, edits), edits, "valid\n" if bad == "0" else "invalid %s\n" % bad
