"""The streams that the words of a command name."""
import os


def names_in(words):
    """The streams that the words name, with those of each folder in order."""
    for word in words:
        if os.path.isdir(word):
            yield from (os.path.join(word, name) for name in sorted(os.listdir(word)) if name.endswith(".264"))
        else:
            yield word
