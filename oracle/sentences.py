"""What each refusal means and what to do, in a sentence each: that which begins its section of docs/ERRORS.md."""

SENTENCES = {
    1: "A byte begins no token: there are no comments, strings are between `\"`, and the sign of an assignment is "
       "`:=`.",
    2: "A string doesn't end before the text does: put the closing `\"`; a `\"` inside is written `\\\"`.",
    3: "A backslash begins no escape of JSON: there are `\\\"`, `\\\\`, `\\/`, `\\b`, `\\f`, `\\n`, `\\r`, `\\t` and "
       "`\\u` with four digits.",
    4: "This is half of a surrogate pair: write both halves, as `\\ud83d\\ude00`, or the character itself.",
    5: "What begins like a number isn't one of JSON: a number has no needless leading zero, no `+` in front, and a "
       "digit on both sides of a point.",
    6: "A name has more than 255 bytes, a string or a number more than 65,535, or the text more than 8,388,608: make "
       "it shorter.",
    7: "A token doesn't fit where it is: put one that could be there, or take it out.",
    8: "The text ends too early: a `}` is missing, or what follows a `.`, a `:=` or a `=`.",
    9: "A number in `idx`, `apply` or `take` is 4,294,967,296 or more: no list and no counter is as long.",
    10: "A word of the language is used as a name: take another name.",
    11: "A script has more than 65,536 commands: part it between replicas, or into scenarios.",
    12: "An expression has more than 256 selectors (`.get`, `.idx`, `.keys`, `.values`): bind a prefix of it by "
        "`let`.",
    13: "The bytes aren't UTF-8: save the file as UTF-8.",
    14: "A scenario begins with `jsoncrdt 1` or `jsoncrdt 2`: there is no other version.",
    15: "Two replicas have one name: give this one another.",
    16: "No replica follows the header: a scenario has one at least, and the schedule comes last.",
    17: "There are more than 64 replicas: leave this one out.",
    18: "No replica of the scenario has this name: write it as it is written behind `replica`.",
    19: "There are more than 100,000 events: part them into scenarios.",
    20: "An insert goes behind an element of a list, or behind its head: write `.idx(0).insertAfter(..)` for the "
        "first place.",
    22: "No `let` has bound the variable before: bind it in an earlier command of the same replica.",
    23: "`idx(0)` is the place before the first element, and has no entries: elements count from 1.",
    24: "An expression that has to lead to a place gives names (`.keys`) or values (`.values`): bind the place "
        "instead.",
    25: "On the way to the place the document has no such map or list at this replica: assign `{}` or `[]` there "
        "first, or apply the operation that makes it.",
    26: "The list has fewer elements at this replica: deleted ones don't count, and others' inserts only once they "
        "are applied.",
    27: "`.keys` needs a map at the place: assign `{}` to it, or an entry below it, first.",
    28: "`.values` gives the plain values at a place, and none was ever assigned to this one: assign one first.",
    29: "A place is more than 512 maps and lists deep: that is a limit of this program.",
    30: "The script has ended, and its replica hears nothing more: end it with one `yield;` for each exchange to "
        "come.",
    31: "The next command is `yield`: `send`, `recv`, `take` and `apply` execute it and `done` ends it, not `exec`.",
    32: "The next command isn't `yield`: execute it first by `exec`, or put a `yield` before it.",
    33: "A `yield` can be ended after one `send`, `recv`, `take` or `apply` in it: put one before `done`.",
    34: "The operation isn't there to be applied or taken: its maker has to `send` it, and this replica to `recv` or "
        "`take` it, before.",
    35: "Each operation is applied once, and one's own when it is made: leave this event out.",
    36: "An operation is applied after all that its maker had applied when it made it: apply these before.",
    44: "A given event is stuck, so the scenario has no start: mend it, or leave it and those behind it out.",
    50: "There are fewer events to take back: `where` shows the position, and `goto 0` goes to the start.",
    51: "There are fewer events left, and nothing moved: `goto N` with the number of events goes to the end.",
    52: "The schedule has fewer events: `where` shows how many, and `act` cuts it off behind the position.",
    53: "There is no breakpoint with this number: the answer to `break`, as `set 1`, has the number.",
    54: "256 breakpoints are set, and there can't be more: `unbreak K` clears one.",
    57: "A session has more than 1,000,000 lines, or 67,108,864 bytes of them: part it into several.",
    58: "There is no such line: `debug --help` lists those that there are.",
}
