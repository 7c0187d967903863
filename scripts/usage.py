"""What the scripts share: a call that fits none of a script's forms ends with its use, and no byte is written."""
import sys


def wrong(use, why=None):
    """Ends a wrong call: why, if that is known, and the use on standard error."""
    if why:
        print(why, end="\n\n", file=sys.stderr)
    print(use.strip(), file=sys.stderr)
    sys.exit(2)


def given(use):
    """The arguments as they are, unless --help is one of them: then the use on standard output is all."""
    if "--help" in sys.argv[1:]:
        print(use.strip())
        sys.exit()
    return sys.argv[1:]


def arguments(use, *forms):
    """The arguments, if they fit one of the forms: words as they stand, and in capitals what the caller names."""
    words = given(use)
    if not any(fits(words, form.split()) for form in forms):
        wrong(use)
    return words


def fits(words, form):
    return len(words) == len(form) and all(
        word[:1] not in ("", "-") if place.isupper() else word == place for word, place in zip(words, form))


def binary(use):
    """Standard output for bytes, which are nothing for a terminal."""
    if sys.stdout.isatty():
        wrong(use, "these bytes go to a file or a program, not to a terminal")
    return sys.stdout.buffer


def calls_and_answers(use):
    """Standard output for calls, and the file that is named for their answers."""
    [name] = arguments(use, "ANSWERS")
    calls = binary(use)
    try:
        return calls, open(name, "w")
    except OSError as fault:
        wrong(use, fault)
