"""Programs that try an arithmetic instruction over all pairs of bytes, or over 65,536 pairs of shorts, and print sums."""
from __future__ import annotations

OPERATIONS = "INC ADD SUB MUL DIV AND ORA EOR SFT EQU NEQ GTH LTH".split()

TAKE = """@take ( value* -- )
    ;sum LDA2 #001f MUL2 ADD2 ;sum STA2 JMP2r
@line ( -- )
    ;sum LDA2 SWP byte byte #0a18 DEO JMP2r
@byte ( value -- ) DUP #04 SFT digit #0f AND
@digit ( value -- ) #30 ADD DUP #39 GTH #27 MUL ADD #18 DEO JMP2r
@sum 0000
"""
# The pair is a short, its first operand the high byte.
BYTES = """( {about} )
|0100
    #0000
    &loop ( pair* -- pair* )
        DUP2 {code} #00 SWP take
        INC2 DUP2 #0fff AND2 ORA ?&loop
        line
        ORAk ?&loop
    POP2 #800f DEO BRK
"""
# Two generators that each run through all shorts.
SHORTS = """( {about} )
|0100
    #0000
    &loop ( count* -- count* )
        ;first LDA2 #6255 MUL2 #3619 ADD2 DUP2 ;first STA2
        ;second LDA2 #7ffd MUL2 #2ad5 ADD2 DUP2 ;second STA2
        {code} take
        INC2 DUP2 #0fff AND2 ORA ?&loop
        line
        ORAk ?&loop
    POP2 #800f DEO BRK
@first 1234 @second 9abc
"""


def source_of(name: str, is_short: bool) -> str:
    """The program of an instruction."""
    if not is_short:
        code = f"NIP {name}" if name == "INC" else name
        return BYTES.format(about=f"{name} of all pairs of bytes", code=code) + TAKE
    is_comparison = name in ("EQU", "NEQ", "GTH", "LTH")
    # Values that are often the same, and divisors that are often small.
    near = "#0301 AND2 SWP2 #0301 AND2 SWP2 "
    codes = {"INC": "POP2 INC2", "SFT": "NIP SFT2", "DIV": "#03ff AND2 DIV2"}
    code = codes.get(name, f"{near}{name}2 #00 SWP" if is_comparison else f"{name}2")
    return SHORTS.format(about=f"{name}2 of 65,536 pairs of shorts", code=code) + TAKE
