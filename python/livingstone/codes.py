"""What the program's codes and statuses mean, and what may help."""

from __future__ import annotations

from typing import Dict, Tuple

# A code: what it means, and a hint.
_CODES: Dict[str, Tuple[str, str]] = {
    "M01": ("the text is longer than 4,194,304 bytes", "split the plant, or shorten comments"),
    "M02": ("a byte that isn't allowed", "outside comments stand words, numbers and <=> => -> = ! & | ( ) . alone"),
    "M03": ("the line is longer than 4,096 bytes, its comment counted", "part the law into several"),
    "M04": ("the first word begins no statement", "statements: model domain type control variable observable mode "
            "law in step fault end part price version"),
    "M05": ("the line has not the form of its statement", "true, false and mode name no part and no variable; `in M | N`, "
            "`fault -> M` and `repair` want the line `version 2` first"),
    "M06": ("the number is outside its limits", "a fault costs 1 to 1,000,000, a price is 0 to 1,000,000, a "
            "version is 1 or 2"),
    "M07": ("the name is in use, or the value is priced twice", "domains, types, parts, the values of a domain, and "
            "the variables and the modes of a type have a name space each"),
    "M08": ("a name that isn't known here", "a name is known on the lines below its declaration"),
    "M09": ("the right side doesn't fit", "it has to be a value of the left side's domain, or a variable of it; a "
            "price is for a control's value that isn't its resting one, the first"),
    "M10": ("the statement stands in the wrong place", "version comes first, then model; parts, prices, domains and types stand "
            "outside types; what a type declares stands before its end"),
    "M11": ("the type has no mode, or isn't ended", "a type has one mode or more, and a line `end`"),
    "M12": ("a limit on names, values, modes, moves, parts, variables or clauses is passed", "a name has 64 bytes, "
            "a domain 32 values, a type 16 modes and 64 moves, a model 256 parts and 4,096 variables"),
    "M13": ("too many parentheses are open, or too many of ! => <=>", "64 and 256 in one line; part the formula"),
    "M14": ("the formula counts as more than 4,096 clauses", "part it into several laws, or name its parts by "
            "variables"),
    "M15": ("the text has no part", "declare one: part NAME TYPE MODE"),
    "S01": ("the first word is none of a session's", "words: track budget command release observe retract goal drop "
            "diagnose window recover more conflicts certificate commit labels states reset quit probe test"),
    "S02": ("the line has not the form of its word", "as in: command P.C = V, observe NAME P.O = V, goal NAME FORMULA"),
    "S03": ("there is no such part, or it has no such variable", ""),
    "S04": ("the variable is no control", "only controls are commanded and released"),
    "S05": ("the variable is no observable", "only observables are observed"),
    "S06": ("the variable has no such value", ""),
    "S07": ("that name is in use", "retract or drop the old one first"),
    "S08": ("nothing of that name is held", "behind the next commit but one an observation is held with its time alone: retract "
            "NAME at S"),
    "S09": ("the number is outside its limits", "track 1 to 64, budget and more 1 to 1,000,000, labels up to the "
            "number of tracked states, window up to 4 and the number of commits and 1, retract's time from three commits back"),
    "S10": ("no query is current that this word could take", "diagnose or recover first; what changes the question "
            "takes the query away"),
    "S11": ("no unsettled query is current", "only a query that used up its trials goes on"),
    "S12": ("the diagnosis lists nothing", "take an observation back, or ask `lv why`"),
    "S13": ("no goal is held", "goal NAME FORMULA first"),
    "S14": ("as many are held as may be, or the name is longer than 64 bytes", "1,024 observations, 64 goals"),
    "S15": ("the line is longer than 4,096 bytes", ""),
    "S16": ("a byte that isn't allowed", "outside comments stand words, numbers and <=> => -> = ! & | ( ) . alone"),
    "S17": ("the formula nests too deep or has too many clauses", "part it into several goals"),
    "S18": ("1,000,000 commits were made", "reset begins anew"),
}

STATUSES: Dict[int, str] = {
    0: "done",
    2: "the words are refused",
    3: "the text is no model",
    4: "the model can't be read",
    5: "the second file can't be read",
    6: "what was to be written was not",
    7: "the second file is too long",
    8: "out of memory",
    9: "the certificate isn't valid",
}


def explain(code: str) -> str:
    """What a code means, in words."""
    return _CODES[code][0] if code in _CODES else "a code that isn't known here"


def hint_of(code: str) -> str:
    """What may help, or nothing."""
    return _CODES[code][1] if code in _CODES else ""
