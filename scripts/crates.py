"""The crates of crates.txt, and the kit that proves and builds them."""
import functools
import os
import subprocess

RT = os.environ.get('RT', 'rt')


@functools.lru_cache(maxsize=None)
def kit():
    """The folder of the kit, which has the file that `rt doc` names."""
    return os.path.dirname(subprocess.run([RT, 'doc'], check=True, stdout=subprocess.PIPE, text=True).stdout.strip())


def listed():
    """The crates by name, each with whether it is a static library, and with the names of the libraries that it uses."""
    found = {}
    with open('crates.txt', encoding='utf-8') as file:
        for line in file:
            name, colon, used = line.partition('#')[0].partition(':')
            if colon:
                name, *kind = name.split()
                found[name] = kind == ['staticlib'], used.split()
    return found


def files_of(folder, *tops):
    """The files below these folders of a crate's, in order."""
    found = []
    for top in tops:
        for below, _, names in os.walk(os.path.join(folder, top)):
            found += [os.path.join(below, name) for name in names]
    return sorted(found)


def bytes_of(name):
    try:
        with open(name, 'rb') as file:
            return file.read()
    except FileNotFoundError:
        return None
