"""The three Rust files that sources.txt names: found in a folder, and held to their checksums."""
import hashlib, os, sys

HERE = os.path.dirname(os.path.abspath(__file__))
GENERATED = os.path.join(HERE, "src", "oracle", "gen")
TEST_MODULE = b"\n#[cfg(test)]\n"


def named():
    """What sources.txt has: the repository and the commit, and each file's name with its checksum."""
    facts, files = {}, {}
    with open(os.path.join(HERE, "sources.txt"), encoding="utf-8") as lines:
        for line in lines:
            if not line.startswith("#"):
                first, second = line.split()
                if first in ("repository", "commit"):
                    facts[first] = second
                else:
                    files[second] = first
    return facts, files


def found(folder, name):
    """A file's bytes up to its test module; None where the folder, or its folder src, does not have it."""
    for path in (os.path.join(folder, name), os.path.join(folder, os.path.basename(name))):
        if os.path.isfile(path):
            with open(path, "rb") as file:
                text, test, _ = file.read().partition(TEST_MODULE)
            return text + (b"\n" if test else b"")
    return None


def stem(name):
    """types, of src/types.rs."""
    return os.path.splitext(os.path.basename(name))[0]


def read(arguments):
    """The texts of the files by stem, from the folder that is given; ends the program where it has not all of them."""
    facts, files = named()
    texts, told = {}, []
    for name, checksum in files.items():
        text = found(arguments[0], name) if len(arguments) == 1 else None
        has = hashlib.sha256(text).hexdigest() if text is not None else "no such file"
        told.append("  %-18s sha256 %s: %s" % (name, checksum, "found" if has == checksum else has))
        if has == checksum:
            texts[stem(name)] = text.decode("utf-8")
    if len(texts) == len(files):
        return texts
    sys.exit(
        "Needed: a folder with these files of %s, commit %s, in it or in its folder src.\n%s\n"
        "A checksum is of the text before the first line #[cfg(test)]."
        % (facts["repository"], facts["commit"], "\n".join(told))
    )
