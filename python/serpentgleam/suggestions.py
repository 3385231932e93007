"""The word that was meant, for messages about a word that is not known."""
import difflib


def meant(word, words):
    """'; did you mean X?' with the nearest of the words, capitals or not, or nothing where none is near."""
    by_small_letters = {known.lower(): known for known in words}
    near = difflib.get_close_matches(word.lower(), by_small_letters, 1)
    return f'; did you mean {by_small_letters[near[0]]}?' if near else ''
