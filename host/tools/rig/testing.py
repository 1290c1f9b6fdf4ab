"""What the tests of the tools share: checks that are counted, files, and the tools as commands."""
import contextlib
import os
import subprocess
import sys
import traceback

TOOLS = os.path.dirname(os.path.dirname(os.path.abspath(__file__)))
EXAMPLES = os.path.join(TOOLS, '..', '..', 'examples')

passed = failed = 0


def check(what, holds, shown=''):
    global passed, failed
    if holds:
        passed += 1
    else:
        failed += 1
        print('FAILED: %s%s' % (what, '\n    %s' % str(shown)[-900:] if shown else ''))


def content(path):
    with contextlib.suppress(FileNotFoundError):
        with open(path, 'rb') as file:
            return file.read()
    return b''


def message(call, wrong, given):
    """What is said against the text; '' if nothing is."""
    try:
        call(given)
    except wrong as error:
        return str(error)
    return ''


def tool(name, *arguments, given=b''):
    return subprocess.run([sys.executable, os.path.join(TOOLS, name), *arguments], input=given, capture_output=True)


def text_boxes(picture):
    """Where the texts of an SVG stand, by about how wide letters are: left, top, right, bottom and the words."""
    for part in picture.iter():
        if part.tag.rpartition('}')[2] == 'text':
            size, words = float(part.get('font-size', 12)), part.text or ''
            wide = size * sum(0.28 if letter in 'il.,;:|! ' else 0.56 for letter in words)
            left = float(part.get('x')) - wide * {'start': 0, 'middle': 0.5, 'end': 1}[part.get('text-anchor')]
            foot = float(part.get('y'))
            yield left, foot - 0.75 * size, left + wide, foot + 0.2 * size, words


def crowded(picture):
    """The texts of an SVG that overlap, or are not inside."""
    wide, high = map(float, picture.get('viewBox').split()[2:])
    boxes, found = list(text_boxes(picture)), []
    for at, one in enumerate(boxes):
        if one[0] < 0 or one[1] < 0 or one[2] > wide or one[3] > high:
            found.append(one[4])
        found += [(one[4], two[4]) for two in boxes[:at] if one[0] < two[2] and two[0] < one[2] and one[1] < two[3] and two[1] < one[3]]
    return found


def run_parts(*parts):
    """Runs the tests of each part; the last line counts them, and the status is 1 if one failed."""
    for part in parts:
        try:
            part()
        except Exception:
            check(part.__name__ + ' runs to its end', False, traceback.format_exc())
    print('%d passed, %d failed' % (passed, failed))
    return 1 if failed or not passed else 0
