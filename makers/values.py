"""Words for values, as a text may have them: `bulk`, `en-US`, `100mA`. A number may stand wherever a word does."""
import itertools

CLASSES = {
    "per-interface": 0x00, "audio": 0x01, "communication": 0x02, "hid": 0x03, "image": 0x06, "printer": 0x07, "mass-storage": 0x08, "hub": 0x09,
    "communication-data": 0x0A, "smart-card": 0x0B, "video": 0x0E, "healthcare": 0x0F, "diagnostic": 0xDC, "wireless": 0xE0,
    "miscellaneous": 0xEF, "application": 0xFE, "vendor": 0xFF,
}

# By the line's first word and the field.
VALUES = {
    "device": {"bDeviceClass": CLASSES},
    "configuration": {"bmAttributes": {"bus-powered": 0x80, "self-powered": 0xC0, "remote-wakeup": 0xA0}},
    "interface": {"bInterfaceClass": CLASSES},
    "endpoint": {
        "bEndpointAddress": {f"{number}-{way}": number + bit for way, bit in (("in", 0x80), ("out", 0)) for number in range(1, 16)},
        "bmAttributes": {"isochronous": 1, "bulk": 2, "interrupt": 3, "asynchronous": 4, "adaptive": 8, "synchronous": 12, "feedback": 16, "implicit": 32},
    },
}

# Fields whose words may be joined, as isochronous+adaptive.
BITS = ["bmAttributes"]

# Fields that count so many of a unit.
UNITS = {"bMaxPower": ("mA", 2)}

# Languages by their usual names, as USB numbers them.
LANGUAGES = {
    "ar-SA": 0x0401, "bg-BG": 0x0402, "zh-TW": 0x0404, "cs-CZ": 0x0405, "da-DK": 0x0406, "de-DE": 0x0407, "el-GR": 0x0408, "en-US": 0x0409,
    "fi-FI": 0x040B, "fr-FR": 0x040C, "he-IL": 0x040D, "hu-HU": 0x040E, "is-IS": 0x040F, "it-IT": 0x0410, "ja-JP": 0x0411, "ko-KR": 0x0412,
    "nl-NL": 0x0413, "nb-NO": 0x0414, "pl-PL": 0x0415, "pt-BR": 0x0416, "ro-RO": 0x0418, "ru-RU": 0x0419, "hr-HR": 0x041A, "sk-SK": 0x041B,
    "sv-SE": 0x041D, "th-TH": 0x041E, "tr-TR": 0x041F, "id-ID": 0x0421, "uk-UA": 0x0422, "sl-SI": 0x0424, "et-EE": 0x0425, "lv-LV": 0x0426,
    "lt-LT": 0x0427, "vi-VN": 0x042A, "zh-CN": 0x0804, "de-CH": 0x0807, "en-GB": 0x0809, "it-CH": 0x0810, "nl-BE": 0x0813, "pt-PT": 0x0816,
    "de-AT": 0x0C07, "en-AU": 0x0C09, "es-ES": 0x0C0A, "fr-CA": 0x0C0C, "en-CA": 0x1009, "fr-CH": 0x100C,
}


def language_words(number):
    """A language's number, and its name where it has one."""
    name = next((name for name, known in LANGUAGES.items() if known == number), "")
    return f"{number:04X}" + (f" ({name})" if name else "")


def language_word(number):
    """A language by its name, or else its number."""
    return next((name for name, known in LANGUAGES.items() if known == number), f"0x{number:04X}")


def value_word(line, name, value):
    """A field's value in words; nothing if there are none for it."""
    if name in UNITS:
        unit, step = UNITS[name]
        return f"{value * step}{unit}"
    known = VALUES.get(line, {}).get(name, {})
    for count in (1, 2, 3) if name in BITS else (1,):
        for words in itertools.combinations(known, count):
            if joined_bits(known[word] for word in words) == value:
                return "+".join(words)
    return ""


def joined_bits(values):
    bits = 0
    for value in values:
        bits |= value
    return bits
