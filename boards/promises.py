"""What all calls of a function promise of its pointers, written into its head, where the compiler reads it: it looks at one function at a time, and the module's
text says nothing of this. align: so every pointer that is lent there is aligned; noalias: nobody else touches the bytes while the function runs.

C aligns its structs: a record that an export is lent is read where it stands, without a copy.
"""
import re

from functions import Alone, Effects
from layout import HALF


# C's structs: the shim asserts it of a record, and a part has two words.
ALIGNED = {"hk_record *": HALF, "hk_part *": HALF}


def with_promises(functions, prototypes):
    """Each parameter that is a pointer says what every call gives."""
    alone = Alone(Effects(functions), {(one.name, number): ALIGNED.get(kind, 1) for one in prototypes for number, (kind, _) in enumerate(one.parameters)})
    for function in functions.values():
        for number, word in function.pointers():
            said = f"align {min(alone.alignment[function.name, number], HALF)}" + (" noalias" if (function.name, number) in alone.own else "")
            function.head = re.sub(rf"ptr noundef {word}(?!\w)", f"ptr noundef {said} {word}", function.head)
