"""Texts that are refused, each with what the program says and how the script explains it."""

HEAD = b"scatter 1\nnodes 3\ngroup 0 1 2 3\n"
SECTION = HEAD + b"client 1\n"

# word, text, the program's line, and what the script says
TEXTS = [
    (
        "run",
        b"# a comment\nscatter 1\n",
        "line 1: missing header",
        [
            "line 1 is: # a comment",
            "line 1 is scatter 1, or scatter 2 for conditional writes",
            "a comment may stand from line 2 on",
        ],
    ),
    (
        "run",
        b"scatter 3\nnodes 3\n",
        "line 1: missing header",
        [
            "line 1 is: scatter 3",
            "line 1 is scatter 1, or scatter 2 for conditional writes",
            "there is no version 3",
        ],
    ),
    (
        "run",
        b"scatter 1 # mine\n",
        "line 1: missing header",
        [
            "line 1 is: scatter 1 # mine",
            "line 1 is scatter 1, or scatter 2 for conditional writes",
            "a comment is a line of its own, from line 2 on, and # is its first byte",
        ],
    ),
    (
        "run",
        b"",
        "line 1: missing header",
        [
            "the input is empty",
            "line 1 is scatter 1, or scatter 2 for conditional writes",
        ],
    ),
    (
        "run",
        b"\n \n",
        "line 1: missing header",
        [
            "line 1 is: ",
            "line 1 is scatter 1, or scatter 2 for conditional writes",
            "the text has no words",
        ],
    ),
    (
        "run",
        b"\xef\xbb\xbfscatter 1\n",
        "line 1: missing header",
        [
            "line 1 is: \\xef\\xbb\\xbfscatter 1",
            "the text begins with a byte order mark, the bytes 239 187 191",
            "an editor wrote it: save the text without one",
        ],
    ),
    (
        "run",
        HEAD + b"go\xc3\xa9 1\n",
        "line 4: bad byte",
        [
            "line 4 is: go\\xc3\\xa9 1",
            "byte 3 of it is 195: bytes are 32 to 126, or a tab",
            "it is part of a letter outside ASCII",
        ],
    ),
    (
        "run",
        HEAD + b"gO 1\n",
        "line 4: unknown word",
        [
            "line 4 is: gO 1",
            "no line begins with gO",
            "a word that is near: go",
        ],
    ),
    (
        "run",
        SECTION + b"cas a b c\nend\n",
        "line 5: unknown word",
        [
            "line 5 is: cas a b c",
            "cas is of version 2: line 1 is scatter 2 then",
        ],
    ),
    (
        "run",
        HEAD + b"order 1 spilt 0.1 5\n",
        "line 4: unknown word",
        [
            "line 4 is: order 1 spilt 0.1 5",
            "the word spilt is no order: orders are join, leave, split, merge, repart, migrate",
            "a word that is near: split",
        ],
    ),
    (
        "run",
        HEAD + b"  # told\n",
        "line 4: unknown word",
        [
            "line 4 is:   # told",
            "no line begins with #",
            "a comment is a line of its own, from line 2 on, and # is its first byte",
        ],
    ),
    (
        "run",
        HEAD + b"put a x\n",
        "line 4: out of place",
        [
            "line 4 is: put a x",
            "no section of a client is open: client C begins one",
        ],
    ),
    (
        "run",
        SECTION + b"put a x\ngo 1\n",
        "line 6: out of place",
        [
            "line 6 is: go 1",
            "the section of line 4, client 1, is open: requests stand in it, and end ends it",
        ],
    ),
    (
        "run",
        HEAD + b"nodes 3\n",
        "line 4: out of place",
        [
            "line 4 is: nodes 3",
            "there is such a line already, line 2",
        ],
    ),
    (
        "run",
        b"scatter 1\ngroup 0 1\n",
        "line 2: out of place",
        [
            "line 2 is: group 0 1",
            "the line nodes N comes first",
        ],
    ),
    (
        "run",
        HEAD + b"settle 1\ngroup 5 1\n",
        "line 5: out of place",
        [
            "line 5 is: group 5 1",
            "lines stand in the order nodes, group, policy, client, schedule",
            "line 4, settle 1, is of a later part",
        ],
    ),
    (
        "run",
        HEAD + b"settle 1 # a comment\n",
        "line 4: wrong count",
        [
            "line 4 is: settle 1 # a comment",
            "it has 5 words, and its form is settle L",
            "a comment is a line of its own, from line 2 on, and # is its first byte",
        ],
    ),
    (
        "run",
        HEAD + b"free 5\n",
        "line 4: wrong count",
        [
            "line 4 is: free 5",
            "it has 2 words, and its form is free L W",
        ],
    ),
    (
        "run",
        HEAD + b"order 1 split 0.1 42949672960\n",
        "line 4: bad number",
        [
            "line 4 is: order 1 split 0.1 42949672960",
            "the word 42949672960 stands where order N split G P has P",
            "P is a position on the ring, 0 to 4294967295",
        ],
    ),
    (
        "run",
        HEAD + b"tick 1\n",
        "line 4: bad number",
        [
            "line 4 is: tick 1",
            "the word 1 stands where tick A has A",
            "A is an actor: nN is node N, 1 to 32, and cC is client C, 1 to 64",
            "node 1 is n1, client 1 is c1",
        ],
    ),
    (
        "run",
        HEAD + b"crash n1\n",
        "line 4: bad number",
        [
            "line 4 is: crash n1",
            "the word n1 stands where crash N has N",
            "N is a node, 1 to 32",
            "it is the number alone here: 1",
        ],
    ),
    (
        "run",
        HEAD + b"settle 007\n",
        "line 4: bad number",
        [
            "line 4 is: settle 007",
            "the word 007 stands where settle L has L",
            "L is a number of deliveries or steps, 1 to 1000000",
            "numbers have no sign and no leading zero",
        ],
    ),
    (
        "run",
        HEAD + b"order 1 merge 1\n",
        "line 4: bad number",
        [
            "line 4 is: order 1 merge 1",
            "the word 1 stands where order N merge G has G",
            "G is a group's name X.Y: X is 0 to 32, Y 1 to 4294967295",
            "the k-th group line's group is 0.k",
        ],
    ),
    (
        "run",
        SECTION + b"get " + b"k" * 65 + b"\nend\n",
        "line 5: bad key",
        [
            "line 5 is: get kkkkkkkkkkkkkkkkkkkkkkkkkkkkkkkkkkkkkkkkkkkkkkkkkkkkkkkkkkkkkkkkk",
            "the word kkkkkkkkkkkkkkkkkkkkkkkkkkkkkk.. stands where get K has K",
            "K is a key of 1 to 64 bytes, each from 33 to 126",
            "it has 65 bytes",
        ],
    ),
    (
        "run",
        SECTION + b"put a " + b"v" * 257 + b"\nend\n",
        "line 5: bad value",
        [
            "line 5 is: put a vvvvvvvvvvvvvvvvvvvvvvvvvvvvvvvvvvvvvvvvvvvvvvvvvvvvvvvvvvvvvvvv..",
            "the word vvvvvvvvvvvvvvvvvvvvvvvvvvvvvv.. stands where put K V has V",
            "V is a value of 1 to 256 bytes, each from 33 to 126",
            "it has 257 bytes",
        ],
    ),
    (
        "run",
        HEAD + b"crash 4\n",
        "line 4: unknown name",
        [
            "line 4 is: crash 4",
            "there is no node 4: line 2 has nodes 3",
        ],
    ),
    (
        "run",
        HEAD + b"tick c2\n",
        "line 4: unknown name",
        [
            "line 4 is: tick c2",
            "no section client 2 stands above",
        ],
    ),
    (
        "run",
        SECTION + b"end\nclient 1\nend\n",
        "line 6: repeated",
        [
            "line 6 is: client 1",
            "client 1 has its section at line 4: one section each",
        ],
    ),
    (
        "run",
        b"scatter 1\nnodes 3\ngroup 0 1 2 1\n",
        "line 3: repeated",
        [
            "line 3 is: group 0 1 2 1",
            "node 1 is named twice: the members of a group are different nodes",
        ],
    ),
    (
        "run",
        HEAD + b"group 0 1\n",
        "line 4: bad boundary",
        [
            "line 4 is: group 0 1",
            "it begins at 0, and the group of line 3 at 0",
            "positions rise from group to group",
        ],
    ),
    (
        "run",
        b"scatter 1\nnodes 32\ngroup 0 1 2 3 4 5 6 7 8 9 10\n",
        "line 3: too many",
        [
            "line 3 is: group 0 1 2 3 4 5 6 7 8 9 10",
            "a group has at most 9 members, and this one 10",
        ],
    ),
    (
        "run",
        SECTION + b"get a\n",
        "line 6: unended client",
        [
            "the text has 5 lines",
            "the text ends inside the section that line 4, client 1, begins: its line `end` is missing",
        ],
    ),
    (
        "run",
        b"scatter 1\nnodes 3\n",
        "line 3: missing part",
        [
            "the text has 2 lines",
            "the text ends, and lacks a line group LO N1 .. Nk",
        ],
    ),
    (
        "run",
        HEAD + b"#\n" * 20000,
        "line 20001: too large",
        [
            "line 20001 is: #",
            "a text has at most 20000 lines and 16777216 bytes; skipped lines count",
        ],
    ),
    (
        "audit",
        HEAD,
        "line 4: missing journal",
        [
            "the text has 3 lines",
            "no line is journal: a stored journal is what ./scatter journal prints",
            "this begins as a scenario: ./scatter journal < FILE makes its journal",
        ],
    ),
    (
        "audit",
        HEAD + b'journal\n{"event": "Go","sent":[],"who":33}\n',
        "line 5: bad row",
        [
            'line 5 is: {"event": "Go","sent":[],"who":33}',
            "a row has no blanks, and its names ascend",
            'so: {"event":"Go","sent":[],"who":33}',
        ],
    ),
    (
        "audit",
        HEAD + b'journal\n{"event":"Go","sent":[],"who":33}',
        "line 5: bad row",
        [
            'line 5 is: {"event":"Go","sent":[],"who":33}',
            "it is the last line, and no line feed ends it",
        ],
    ),
    (
        "audit",
        HEAD + b"journal\nrow\n",
        "line 5: bad row",
        [
            "line 5 is: row",
            "it is no JSON value, and a row is one, in a line of its own",
        ],
    ),
    (
        "audit",
        HEAD + b'journal\n{"event":"Went","sent":[],"who":33}\n',
        "line 5: bad row",
        [
            'line 5 is: {"event":"Went","sent":[],"who":33}',
            "it is JSON, but says not what a row says: docs/JOURNALS.md has the names",
        ],
    ),
]
