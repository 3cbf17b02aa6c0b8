"""Wrong bodies: each is a file that names a file of its crate, and texts that stand there once, each with what comes in its place."""


class BadEdit(Exception):
    """An edit that can't be made, or tried."""


def read_edit(path):
    """The texts that an edit changes, each with its file and with what comes in its place; and the crates that test it."""
    file, old, changes, tests = None, None, [], []
    for line in path.read_text(encoding="utf-8").splitlines():
        # The new text may be empty, and its line without a blank then.
        word, _, text = line.partition(": ")
        word = word.rstrip(":")
        if word == "file":
            file = text.strip()
        elif word == "test":
            tests.append(text)
        elif word == "old" and file and old is None:
            old = text
        elif word == "new" and old is not None:
            changes.append((file, old, text))
            old = None
        else:
            raise BadEdit(f"{line!r} stands there")
    if not changes or old is not None:
        raise BadEdit("it has no file, or no old text with a new one")
    return changes, tests


def changed(text, file, old, new):
    """A file's text, with the new one in the old one's place."""
    if text.count(old) != 1:
        raise BadEdit(f"an old text stands {text.count(old)} times in {file}")
    return text.replace(old, new)
