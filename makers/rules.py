"""The rules of opening by their numbers: what each asks, and what may stand at the byte that it names. docs/MAKERS.md has an example of each."""

RULES = {
    101: ("a set has at least 4 bytes", "a whole set: this file breaks off here"),
    102: ("a set has at most 16,384 bytes", "nothing: the set has to end before this byte"),
    103: ("bytes 0 and 1 are the set's length", "the length of the file, low byte first"),
    104: ("there is at least one entry", "1 to 64"),
    105: ("there are at most 64 entries", "1 to 64"),
    106: ("byte 3 is zero", "00"),
    107: ("4 + 8 × entries is at most the total", "the number of entries: that many have no room in this set"),
    201: ("an entry's type is 1, 2 or 3", "01 (device), 02 (configuration) or 03 (string)"),
    202: ("entries ascend by type, then language, then index, none twice", "an entry that comes after the one before it"),
    203: ("an entry's length is at least 2", "2 or more"),
    204: ("the first body begins at 4 + 8 × entries, each next where the last ended", "where the body before it ended, low byte first"),
    205: ("the last body ends at the total", "a length with which the last body ends where the set does"),
    301: ("there is one type 1 entry", "one device entry, as the first, and no second"),
    302: ("the device's index is 0", "00"),
    303: ("the device's language is 0", "00 00"),
    304: ("the device's body has 18 bytes", "12 00"),
    305: ("the device's bLength is 18", "12"),
    306: ("the device's bDescriptorType is 1", "01"),
    307: ("bMaxPacketSize0 is 8, 16, 32 or 64", "08, 10, 20 or 40"),
    308: ("class 0 only with subclass 0", "00, or name a class at the byte before"),
    309: ("bNumConfigurations is at least 1", "01 to 08"),
    310: ("bNumConfigurations is at most 8", "01 to 08"),
    311: ("bNumConfigurations is the number of type 2 entries", "the number of type 2 entries"),
    312: ("a SuperSpeed set has one type 15 entry, the BOS", "one entry of type 0F, behind all others"),
    313: ("the BOS has index 0", "00"),
    314: ("the BOS has language 0", "00 00"),
    315: ("the BOS has at least 5 bytes", "05 00 or more"),
    316: ("bytes 2 and 3 of the BOS are its length", "the length of the whole BOS, low byte first"),
    401: ("configurations have the indices 0, 1, 2 ..", "the next index"),
    402: ("a configuration's language is 0", "00 00"),
    403: ("every bLength is at least 2", "the descriptor's own length"),
    404: ("no descriptor runs past its body's end", "the descriptor's own length, or a longer body"),
    405: ("the first descriptor of a body is a configuration: type 2", "02"),
    406: ("a configuration descriptor has at least 9 bytes", "09 or more"),
    407: ("wTotalLength is the body's length", "the length of the whole body, low byte first"),
    408: ("bmAttributes of a configuration has bit 7", "80, A0, C0 or E0"),
    409: ("bmAttributes of a configuration has bits 4 to 0 zero", "80, A0, C0 or E0"),
    410: ("bMaxPower is at most 250", "00 to FA: it counts 2 mA"),
    411: ("no descriptor of type 1, 2, 3, 6 or 7 stands in a configuration", "04, 05, or a type of a class"),
    412: ("an interface descriptor has at least 9 bytes", "09 or more"),
    413: ("an endpoint descriptor has at least 7 bytes", "07 or more"),
    414: ("bNumInterfaces is at least 1", "01 to 10"),
    415: ("bNumInterfaces is at most 16", "01 to 10"),
    416: ("the first interface is number 0", "00"),
    417: ("the first interface is alternate setting 0", "00"),
    418: ("the next interface has the same number and the alternate setting one higher, or the number one higher and alternate setting 0",
          "a number and an alternate setting that follow the interface before"),
    419: ("the last interface number is bNumInterfaces − 1", "how many interface numbers follow"),
    420: ("alternate settings end at 15", "00 to 0F"),
    421: ("bNumEndpoints endpoints follow an interface", "how many endpoints follow, before the next interface"),
    422: ("no endpoint stands before the first interface", "an interface first"),
    423: ("bEndpointAddress has bits 6 to 4 zero", "01 to 0F, or 81 to 8F"),
    424: ("an endpoint's number is not 0", "01 to 0F, or 81 to 8F"),
    425: ("bmAttributes of an endpoint has bits 7 and 6 zero", "01, 02, 03, or an isochronous endpoint's up to 3D"),
    426: ("the transfer type is not 0 (control)", "01 (isochronous), 02 (bulk) or 03 (interrupt)"),
    427: ("bmAttributes has bits 5 to 2 zero, unless isochronous", "02 or 03"),
    428: ("a bulk endpoint's size is 8, 16, 32 or 64", "08 00, 10 00, 20 00 or 40 00"),
    429: ("an interrupt endpoint's size is at most 64", "00 00 to 40 00"),
    430: ("an isochronous endpoint's size is at most 1,023", "00 00 to FF 03"),
    431: ("an interrupt endpoint's bInterval is not 0", "01 to FF"),
    432: ("an isochronous endpoint's bInterval is 1 to 16", "01 to 10"),
    433: ("an address occurs once in a setting", "an address that no endpoint before it in this setting has"),
    434: ("an address occurs in one interface only", "an address that no other interface has"),
    435: ("bConfigurationValue is not 0", "01 to FF"),
    436: ("no two configurations have one bConfigurationValue", "a value that no configuration before it has"),
    437: ("a companion has at least 6 bytes", "06 or more"),
    438: ("directly after every endpoint stands a companion", "a companion (06 30 ..) behind this endpoint"),
    439: ("a companion stands nowhere but directly after an endpoint", "another type than 30, or an endpoint before it"),
    501: ("a string's bLength is its entry's length", "the entry's length"),
    502: ("a string's bDescriptorType is 3", "03"),
    503: ("a string's length is even", "an even length up to FE, here and in the entry"),
    504: ("language 0 goes with index 0, and with no other", "00 00 for the list of languages, else the string's language"),
    505: ("string 0 lists a language", "04 03 and a language"),
    506: ("string 0 lists at most four languages", "nothing: the fifth language begins here"),
    507: ("no listed language is 0", "a language, as 09 04"),
    508: ("the listed languages ascend, none twice", "a language above the one before it"),
    509: ("a string is in a listed language", "a language that string 0 lists, low byte first"),
    510: ("string 0 is there if there is any string, or any reference that is not 0", "string 0 before all strings; a reference may be 00"),
    511: ("no string has the index iSerialNumber", "another index: the serial number comes from the serial block"),
    512: ("a reference has its string in every listed language, or is iSerialNumber's value", "00, or a string's index"),
    601: ("the serial block is empty if iSerialNumber is 0", "nothing"),
    602: ("the serial block's length is even", "a block of even length"),
    603: ("the serial block has at least 4 bytes", "a whole block: it breaks off here"),
    604: ("the serial block has at most 254 bytes", "nothing: the block has to end before this byte"),
    605: ("the serial block's first byte is its length", "the block's length"),
    606: ("the serial block's second byte is 3", "03"),
    2401: ("each set of a pair has one type 6 entry", "one entry of type 06, behind those of types 1 to 3"),
    2402: ("the device_qualifier has index 0", "00"),
    2403: ("the device_qualifier has language 0", "00 00"),
    2404: ("the device_qualifier has 10 bytes", "0A 00"),
    2405: ("the device_qualifier is the one of the other set's device descriptor", "what the other set's device has"),
    2406: ("there are as many type 7 entries as the other set has configurations", "an entry of type 07 for each configuration of the other set"),
    2407: ("a type 7 entry has the index of the other set's configuration in the same place", "the index of that configuration"),
    2408: ("a type 7 entry has language 0", "00 00"),
    2409: ("a type 7 body is as long as the other set's configuration", "the length of that configuration, low byte first"),
    2410: ("a type 7 body is the other set's configuration, but for its type byte, which is 7", "what the other set's configuration has"),
}

# The kinds of set, by the limits that each goes by: lent alone, the two of a pair, SuperSpeed.
ALONE, PAIRED, HIGH, SUPER = "alone", "paired", "high", "super"

# What rules ask of sets of other kinds, where that is something else; the others ask the same.
PAIR_TYPES = {201: ("an entry's type is 1, 2, 3, 6 or 7",
                    "01 (device), 02 (configuration), 03 (string), 06 (device_qualifier) or 07 (other_speed_configuration)")}
OTHER_LIMITS = {
    ALONE: {},
    PAIRED: PAIR_TYPES,
    HIGH: {
        **PAIR_TYPES,
        307: ("bMaxPacketSize0 is 64 at high speed", "40"),
        428: ("a bulk endpoint's size is 512 at high speed", "00 02"),
        429: ("an interrupt endpoint's size is at most 1,024 at high speed, and at most 2 packets more in a microframe",
              "00 00 to 00 04; bits 12 and 11 up to 2, bits 15 to 13 zero"),
        430: ("an isochronous endpoint's size is at most 1,024 at high speed, and at most 2 packets more in a microframe",
              "00 00 to 00 04; bits 12 and 11 up to 2, bits 15 to 13 zero"),
        431: ("an interrupt endpoint's bInterval is 1 to 16 at high speed", "01 to 10: 2 to the power bInterval − 1, in 125 µs"),
    },
    SUPER: {
        201: ("an entry's type is 1, 2, 3 or 15", "01 (device), 02 (configuration), 03 (string) or 0F (BOS)"),
        307: ("bMaxPacketSize0 of a SuperSpeed set is 9", "09"),
        428: ("a SuperSpeed bulk endpoint's size is 1,024", "00 04"),
        429: ("a SuperSpeed interrupt endpoint's size is 1 to 1,024", "01 00 to 00 04"),
        430: ("a SuperSpeed isochronous endpoint's size is at most 1,024", "00 00 to 00 04"),
        431: ("a SuperSpeed interrupt endpoint's bInterval is 1 to 16", "01 to 10"),
    },
}


def rule_words(rule, limits=ALONE):
    """What a rule asks of a set that goes by these limits, and what may stand at its byte."""
    return OTHER_LIMITS[limits].get(rule, RULES[rule])


# The rules that only some kinds of set are asked: the BOS and companions, and what two sets have in common.
OF_SUPER = [*range(312, 317), *range(437, 440)]
OF_PAIR = [rule for rule in RULES if rule > 2400]


def asked_of(limits):
    """The rules that a set by these limits may break."""
    own = {ALONE: [], SUPER: OF_SUPER}.get(limits, OF_PAIR)
    return [rule for rule in RULES if rule in own or rule not in OF_SUPER + OF_PAIR]
