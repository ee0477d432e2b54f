"""Sets of several shapes, of any length from 200 bytes on: what tests/benchmark measures an event on.

A shape gives for a length a set of just so many bytes, and the value of its last configuration. There interface and endpoint 81 stand last.
"""
import itertools

from pieces import CONFIGURATION, DEVICE, STRING, a_set, configuration, endpoint, interface, languages

LANGUAGES = (0x0407, 0x0409, 0x040C, 0x0410)
LONGEST_STRING = 254
MOST_STRINGS = 61
# Below, a shape has less of everything.
SHORT = 1000


# ---- descriptors
def device(configurations, strings):
    return bytes([18, 1, 0, 2, 0, 0, 0, 64, 0x34, 0x12, 0x78, 0x56, 0, 1, strings and 1, strings and 2, 0, configurations])


def class_descriptors(length, sizes, kinds=(0x24,)):
    """Of these sizes and types in turn, as many as go into `length`, which is not 1; the last ones share what is left."""
    made = b""
    for size, kind in zip(itertools.cycle(sizes), itertools.cycle(kinds)):
        left = length - len(made)
        if left == 0:
            return made
        size = min(size, left)
        if left - size == 1:
            size += -1 if size > 2 else 1
        made += bytes([size, kind]) + bytes(size - 2)


def strings(count, length, used=LANGUAGES):
    """`count` strings in each of these languages, each of `length` bytes: (index, language, body)."""
    if count == 0:
        return []
    each = [(index, language, bytes([length, 3]) + bytes(length - 2)) for language in used for index in range(1, count + 1)]
    return [(0, 0, languages(*used)), *each]


# ---- sets of bodies of configurations, each as (interfaces, descriptors), and of strings
def assemble(bodies, texts):
    configurations = [
        (CONFIGURATION, index, 0, configuration(body, value=index + 1, interfaces=interfaces)) for index, (interfaces, body) in enumerate(bodies)
    ]
    first = (DEVICE, 0, 0, device(len(bodies), len(texts)))
    return a_set(first, *configurations, *((STRING, *text) for text in texts))


def filled(length, bodies, texts, *form):
    """Class descriptors of this form, before the last endpoint, fill the set up to `length`."""
    room = length - len(assemble(bodies, texts))
    interfaces, last = bodies[-1]
    bodies = [*bodies[:-1], (interfaces, last[:-7] + class_descriptors(room, *form) + last[-7:])]
    made = assemble(bodies, texts)
    assert len(made) == length
    return made, len(bodies)


def many_settings(length, most_interfaces, setting, texts=(), most_settings=None):
    """Settings setting(interface, alternate), 16 for each interface, in as many configurations as it takes; endpoint 81 stands last."""
    numbers = [(number, alternate) for number in range(most_interfaces) for alternate in range(16)][:most_settings]
    bodies = []

    def configuration_of(settings):
        last = numbers[settings - 1][0] + 1
        return last + 1, b"".join(setting(*number) for number in numbers[:settings]) + interface(last, 0, 1) + endpoint(0x81)

    def room(settings):
        return length - len(assemble([*bodies, configuration_of(settings)], texts))

    while len(bodies) < (1 if most_settings else 8) and room(1) > 1:
        fitting = (settings for settings in range(len(numbers), 0, -1) if room(settings) == 0 or room(settings) > 1)
        bodies.append(configuration_of(next(fitting)))
    return filled(length, bodies, texts, (255,))


# ---- shapes
def as_devices_are(number, alternate):
    """A setting of two endpoints with a class descriptor of 9 bytes."""
    return interface(number, alternate, 2, 3) + class_descriptors(9, (9,)) + endpoint(0x82 + number) + endpoint(1 + number)


def plain(length):
    """As devices are, with 3 strings."""
    return many_settings(length, 14, as_devices_are, strings(3, 6, LANGUAGES[1:2]) if length < SHORT else strings(3, 30))


def padded(length):
    """The short plain set, with its two settings, whose last interface has long class descriptors besides."""
    return many_settings(length, 14, as_devices_are, strings(3, 6, LANGUAGES[1:2]), most_settings=2)


def endpoints(length):
    addresses = [*range(0x82, 0x90), *range(1, 16)][: 8 if length < SHORT else None]
    return many_settings(length, 1, lambda _, alternate: interface(0, alternate, len(addresses)) + b"".join(map(endpoint, addresses)))


def interfaces(length):
    return many_settings(length, 15, interface)


def references(length):
    """Every interface refers to a string, which stands in four languages, in a short set in one."""
    count, used = (3, LANGUAGES[1:2]) if length < SHORT else (13 if length >= 4000 else 7, LANGUAGES)
    return many_settings(length, 15, lambda number, alternate: interface(number, alternate, 0, 1 + alternate % count), strings(count, 4, used))


def texts(length):
    """15 strings in four languages, as long as it takes; in a short set 12 in one."""
    only = [(1, interface(0, 0, 1, 3) + endpoint(0x81))]
    count, used = (12, LANGUAGES[1:2]) if length < SHORT else (15, LANGUAGES)
    rest = length - len(assemble(only, strings(count, 2, used)))
    return filled(length, only, strings(count, min(LONGEST_STRING, 2 + rest // (2 * count * len(used)) * 2), used), (255,))


def long_texts(length):
    """As few strings as it takes, in one language: of the greatest length in a set that has more than two."""
    only, used = [(1, interface(0, 0, 1) + endpoint(0x81))], LANGUAGES[1:2]
    room = length - len(assemble(only, strings(2, 2, used)[:1]))
    count = min(MOST_STRINGS, max(2, room // (8 + LONGEST_STRING)))
    each = min(LONGEST_STRING, room // count // 2 * 2 - 8)
    if room - count * (8 + each) == 1:
        each -= 2
    return filled(length, only, strings(count, each, used), (255,))


def of_class_descriptors(*form):
    return lambda length: filled(length, [(1, interface(0, 0, 1) + endpoint(0x81))], [], *form)


# "class, N bytes" has class descriptors of that length
SHAPES = {
    "plain": plain,
    "plain, padded": padded,
    "many endpoints": endpoints,
    "many interfaces": interfaces,
    "many references": references,
    "many strings": texts,
    "long strings": long_texts,
    "class, 255 bytes": of_class_descriptors((255,)),
    "class, 9 bytes": of_class_descriptors((9,)),
    "class, 2 bytes": of_class_descriptors((2,)),
    "class, 2 bytes, two types": of_class_descriptors((2,), (0x24, 0x25)),
    "class, 2 and 3 bytes": of_class_descriptors((2, 3)),
    "class, 9 and 5 bytes": of_class_descriptors((9, 5)),
}
COSTLIEST = "class, 2 bytes"
