"""What a reader who made a usual slip is told besides: a table, of which the first row that fits is said.

A row has the refusals for which it is, what is found there, what the text before it ends with (both as regular
expressions), what could be there among other things, and the hint. FOUND in it is what is found.
"""

ENTRY = 'an entry of a map is `.get("key")`, an element of a list `.idx(1)`'
KEY = 'a key is a string: `get("FOUND")`'
INDEX = "an index is digits alone: elements count from 1, and 0 is the place before the first"
NO_PARTS = "a value has no parts: "
IN_MAP = NO_PARTS + "assign `{}`, and its entries afterwards"
IN_LIST = NO_PARTS + "assign `[]`, and insert its elements afterwards"
NAMES = "a name has letters, digits and `_`, and doesn't begin with a digit"
ALONE = "an expression alone is no command: `:=`, `.insertAfter(..)` or `.delete` is missing"
COMMAND = "a command is an assignment by `:=`, an `.insertAfter(..)`, a `.delete`, a `let` or a `yield`"
COLON = "an assignment is `:=`; a value has no parts, so a map is assigned as `{}` and its entries afterwards"
NO_COMMENTS = "there are no comments: leave it out"
FORMS = {"recv": "`p.recv(q)`, from the replica `q`", "apply": "`p.apply(2, q)`, of `2@q`",
         "take": "`p.take(q, 2, r)`, from `q`, of `2@r`"}
ANY, NAME = r".*", r"[A-Za-z_]\w*"

HINTS = (
    # Commands.
    ((7,), r"=", r"", (b":=",), "an assignment is `:=`; `=` is for `let` alone"),
    ((7,), r":=", r"", (b"=",), "`let` binds by `=`"),
    ((7,), ANY, r"\b(var|const|local|set|def)$", (b":=",), "a variable is bound by `let x = ..`"),
    ((7,), r"\[", r"", (b".",), ENTRY),
    ((7,), r"exec|send|done|recv|apply|take", r"\.$", (b"get",), "events are in the schedule, and commands in scripts"),
    ((7,), NAME, r"\.$", (b"get",), 'the entry of a map is `.get("FOUND")`'),
    ((7,), ANY, r"\bget\s*\($", (), KEY),
    ((7,), ANY, r"\bidx\s*\($", (), INDEX),
    ((7,), r"\(", r"\.(delete|keys|values|exec|send|done)$|\byield$", (), "there are no brackets behind it"),
    ((7,), ANY, r"(:=|\()\s*\{$", (b"}",), IN_MAP),
    ((7,), ANY, r"\[$", (b"]",), IN_LIST),
    ((7,), r"None|nil|undefined|NULL", r"", (b"null",), "nothing is `null`"),
    ((7,), NAME, r"", (b"null",), 'a string is between `"`: `"FOUND"`'),
    ((7,), r"[;}]", r"", (b":=",), ALONE),
    ((7,), ANY, r"", (b":=",), COMMAND),
    # Events.
    ((7,), ANY, r"\brecv\s*\([^)]*$", (), "an event is as " + FORMS["recv"]),
    ((7,), ANY, r"\bapply\s*\([^)]*$", (), "an event is as " + FORMS["apply"]),
    ((7,), ANY, r"\btake\s*\([^)]*$", (), "an event is as " + FORMS["take"]),
    ((7,), ANY, r"\brecv$", (b"(",), "an event is as " + FORMS["recv"]),
    ((7,), ANY, r"\bapply$", (b"(",), "an event is as " + FORMS["apply"]),
    ((7,), r"take", r"\.$", (), "`take` is of version 2: begin with `jsoncrdt 2`"),
    ((7,), ANY, r"", (b".",), "an event is as `p.exec`: a replica, a point and what it does"),
    # Blocks.
    ((7,), r"[A-Za-z_]\w*", r"", (b";",), "a `;` is missing before it"),
    ((7,), ANY, r"\b(schedule|given|replica\s+\w+)$", (b"{",), "a block is between `{` and `}`"),
    ((7,), r"given", r"\}$", (b"replica",), "`given` is of version 2: begin with `jsoncrdt 2`"),
    ((7,), r"given|schedule|replica", r"\}$", (), "replicas come first, then `given` and `schedule`, once each"),
    ((7,), r"\}", r"\}$", (), "there is a `}` too many before it, or this is the one"),
    ((7,), r'".*', r"\breplica$", (), "a name is without quotes"),
    # The beginning.
    ((14,), r"\d.*", r"jsoncrdt$", (), "there is no version FOUND"),
    ((14,), ANY, r"jsoncrdt$", (), "the version is missing: `jsoncrdt 1`"),
    ((14,), r"replica", r"^$", (), "the first line, `jsoncrdt 1`, is missing"),
    ((16,), r"given|schedule", r"", (), "a replica with a script comes before it: `replica p { yield }`"),
    # Tokens.
    ((1,), r":", r"[\"}\]\w)]$", (), COLON),
    ((1,), r"['\u2018\u2019\u201c\u201d`]", r"", (), 'a string is between `"`'),
    ((1,), r"[#/*-]", r"", (), NO_COMMENTS),
    ((1,), r"@", r"\d$", (), "an operation `2@q` is written `2, q`"),
    ((1,), r"\+", r"", (), "a number has no `+` in front, and there are no sums"),
    ((1,), r"\ufeff", r"", (), "save the file without a byte order mark"),
    ((1,), r"\n|\r|\t", r"", (), "in a string a line break is written `\\n`, a tab `\\t`"),
    ((5,), r"-.*", r"\w$", (), NAMES),
    ((5,), r"\d\w*[A-Za-df-z_-].*", r"\breplica$|\blet$|[({;]$", (), NAMES),
    ((5,), r"-?0\d+", r"", (), "leave out the zeros in front"),
    ((5,), r"0[xXbBoO].*", r"", (), "numbers are decimal"),
    ((5,), r".*\.", r"", (), "a digit follows the point"),
    ((13,), ANY, r"", (), "a file in UTF-16 isn't, nor one that is no text"),
)
