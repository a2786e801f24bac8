"""What the makers of random texts share."""


def joined(rng, lines):
    """The bytes of the lines, each with a line feed or all with a CR before it; some without the last line feed."""
    end = rng.choice(["\n", "\n", "\n", "\r\n"])
    text = end.join(lines) + end
    if rng.random() < 0.15:
        text = text[:-len(end)] + rng.choice(["", "\r"])
    return text.encode("latin-1")
