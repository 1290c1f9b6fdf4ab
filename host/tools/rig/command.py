"""What the commands share: a file or standard input in, all of the output or none of it out, and a status."""
import argparse
import contextlib
import os
import re
import sys


def read(name):
    if name == '-':
        return sys.stdin.buffer.read()
    with open(name, 'rb') as file:
        return file.read()


def version():
    """That of the interface, from its header: host/include, or the prefix's include where this is installed as lib/focus/rig."""
    above = os.path.dirname(os.path.dirname(os.path.dirname(os.path.abspath(__file__))))
    for root in (above, os.path.dirname(above)):
        name = os.path.join(root, 'include', 'focus.h')
        if os.path.exists(name):
            with open(name, encoding='utf-8') as header:
                return re.search('FOCUS_VERSION_TEXT "(.*)"', header.read())[1]
    return 'of an unknown version'


def parser(name, usage, words):
    """One that takes --help, which prints these words, and --version."""
    made = argparse.ArgumentParser(prog=name, usage=usage, description=words, formatter_class=argparse.RawDescriptionHelpFormatter)
    made.add_argument('--version', action='version', version='%s %s' % (name, version()), help='print the version')
    return made


def lines(name):
    """The lines of a file as text, each as soon as it is there."""
    with contextlib.ExitStack() as stack:
        file = sys.stdin.buffer if name == '-' else stack.enter_context(open(name, 'rb'))
        for line in iter(file.readline, b''):
            yield text_of(line)


def shown(name):
    return 'standard input' if name == '-' else name


def text_of(data):
    """Any bytes as text, without the mark that some editors put in front."""
    return data.decode('utf-8-sig', errors='replace')


def finish(make, wrong):
    """Writes the bytes that `make` gives. If it raises `wrong`, or a file cannot be read, one line on standard error and status 1."""
    try:
        output = make()
        sys.stdout.buffer.write(output)
        sys.stdout.buffer.flush()
    except BrokenPipeError:          # the reader has seen enough
        os.dup2(os.open(os.devnull, os.O_WRONLY), sys.stdout.fileno())
    except wrong as error:
        print(error, file=sys.stderr)
        return 1
    except OSError as error:
        print('%s: %s' % (error.filename, error.strerror), file=sys.stderr)
        return 1
    return 0
