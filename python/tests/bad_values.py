"""What the tests of programs as objects share: what is put into names and numbers by harm."""
from typing import Any

# What a word or a line could be ended by, and what a listing would take for something else.
EVIL = ("x\nend class\nclass LEvil; 0x1\nend class\n", "LA; 0x1\nend class\nclass LB;", "LA; 0x1", "LA;\n", "\nLA;",
        "LA;\r", "LA;\t", " ", "", "\0", "L\u2028;", "L\x85;", "L\u0020;", "L\\u0020;", 'L";', "L;", "LA", "#", "LA;#",
        "[V", "VV", "LA;LB;", "L\ud800;", "LA;->m()V", "m\nend code", "a b", "a->b", "a:I", "m()V", "a(", "<", "<a",
        "a>", "a;", "[a", "a/b", "\u2066", "end class", "v0", ":L0", "{", "}", "0x1", '"', '"a"', "\\")
MEMBERS = ("LA", "VV", "\u2066", "v0", "0x1")  # those of them that a member may be called
WRONG: tuple[Any, ...] = (5, 1.5, None, b"LA;", [], {}, object(), True)
MNEMONICS = ("nop\nend code", "nop v0", "end code", "end", "class", "code", "super", "implements", "source", "static",
             "instance", "direct", "virtual", "catchall", "catch", "try", "dex", "nop ", " nop", "", "\tnop", "0:",
             ":L", "nop\r", "#nop", "NOP", "nop\0", "nop\u2028", "{", '"nop"', "\\nop")
