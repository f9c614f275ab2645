"""The faults, written by tools/generate from docs/FORMAT.md and docs/LISTING.md: the name of each number, the sentence
of its row, and what its place is.
"""
FAULTS = {
    1: ("TooShort", "there are fewer than 112 bytes", "the length"),
    2: ("Magic", "bytes 0 to 3 or byte 7 differ: not a .dex file", "0"),
    3: ("Version", "bytes 4 to 6 are not `035`", "4"),
    4: ("FileSize", "file_size is not the length", "32"),
    5: ("HeaderSize", "header_size is not 0x70", "36"),
    6: ("Endian", "endian_tag is not 0x12345678", "40"),
    7: ("Linked", "link_size is not 0", "44"),
    8: ("Checksum", "the Adler-32 differs: the file was damaged or changed", "8"),
    9: ("Signature", "the SHA-1 differs: the file was changed after it was signed, or D8 before 1.6.20 wrote it "
    "(`dexasm-explain` says which, `dexasm-close` mends it)", "12"),
    10: ("SectionRange", "a table with rows is misaligned; a table with rows, or a data section of size above 0, "
    "begins below 112 or ends after the end of the file", "its size field"),
    11: ("TooManyRows", "more than 65535 types or protos", "64 (types) or 72 (protos)"),
    12: ("MapPlace", "the map is misaligned, or not within the data section with all its entries", "52"),
    13: ("MapEntry", "an entry of the map breaks a rule", "the entry"),
    14: ("MapMissing", "the map has no entry of its own; a table with rows has no entry", "52; its size field"),
    20: ("StringPlace", "a string's offset lies outside the section (its end is outside)", "the row"),
    21: ("StringSpelling", "there is no string_data_item within the section", "the row"),
    22: ("StringOrder", "a string is not above the row before", "the row"),
    23: ("TypeIndex", "a type's string index is out of range", "the row"),
    24: ("TypeText", "a type's string is not a descriptor", "the row"),
    25: ("TypeOrder", "a type is not above the row before", "the row"),
    26: ("ProtoIndex", "a prototype's string or return type index is out of range", "the row"),
    27: ("Shorty", "the shorty is not that of the types", "the row"),
    28: ("ParameterList", "the parameters' offset, alignment, spelling or an index, or a parameter V", "the row"),
    29: ("ProtoOrder", "a prototype is not above the row before", "the row"),
    30: ("FieldIndex", "a field's class, type or name index is out of range", "the row"),
    31: ("FieldKind", "a field's class, type or name is of a wrong kind", "the row"),
    32: ("FieldOrder", "a field is not above the row before", "the row"),
    33: ("MethodIndex", "a method's class, prototype or name index is out of range", "the row"),
    34: ("MethodKind", "a method's class or name is of a wrong kind", "the row"),
    35: ("MethodOrder", "a method is not above the row before", "the row"),
    40: ("ClassIndex", "the index of the class, superclass or source file is out of range", "the class row"),
    41: ("ClassKind", "class or superclass is not a class type", "the class row"),
    42: ("ClassOrder", "the class is also that of an earlier row, or the superclass or an interface is the class "
    "of this row or of a later one (even if also of an earlier one; the later rows need not be " "right for that)",
    "the class row"),
    43: ("InterfaceList", "no list of distinct class types is at the offset", "the class row"),
    44: ("ClassData", "no class_data_item is at the offset", "the class row"),
    45: ("MemberIndex", "a member's index is past its table", "the class row"),
    46: ("MemberOwner", "a member is of another class", "the class row"),
    47: ("MemberOrder", "a member has the index of the one before", "the class row"),
    48: ("Values", "the static values' offset; a count or a value runs past the section; a count is misspelled",
    "the class row"),
    49: ("TooManyValues", "more values than static fields", "the class row"),
    50: ("ValueKind", "a value's type, argument or index", "the value"),
    51: ("ValueDepth", "an array within 64 others; the encoded_array of the row is not a value, and is not counted",
    "the value"),
    60: ("CodePlace", "the offset is misaligned or outside the section, or the item runs past it before its "
    "handlers", "the offset"),
    61: ("EmptyCode", "a code of no units", "the offset"),
    62: ("Opcode", "an unused opcode", "the instruction"),
    63: ("Cut", "an instruction runs past the units", "the instruction"),
    64: ("NonZero", "a bit that has to be zero is set, or a unit with the low byte 00 is neither a nop nor a "
    "payload", "the instruction"),
    65: ("OperandIndex", "an index out of range", "the instruction"),
    66: ("RegisterCount", "more than five registers in a list", "the instruction"),
    67: ("Payload", "a payload at an odd unit, of another width, with keys that do not rise", "the instruction"),
    68: ("BranchTarget", "a branch or a switch targets no instruction, or a payload",
    "the instruction; of a switch its payload"),
    69: ("BranchZero", "a branch other than goto/32 to itself", "the instruction"),
    70: ("PayloadUse", "an instruction that refers to no payload of its kind, or a switch's payload without "
    "exactly one user", "the instruction, or the payload"),
    71: ("Try", "a try begins at no instruction, covers nothing, ends after the units or overlaps the one " "before",
    "the try_item"),
    72: ("Handler", "the list is not within the section of code items, a number in it is misspelled, a type "
    "index is out of range (any type may be caught), an address is not the first unit of an "
    "instruction or payload, or a handler_off is not the offset of a handler in the list", "the list"),
    73: ("Register", "more ins than registers, or an instruction names a register that the code does not have",
    "the code_item; the first such instruction"),
    80: ("TooManyTypes", "more than 65535 types are needed", "how many"),
    81: ("TooManyProtos", "more than 65535 prototypes are needed", "how many"),
    82: ("StringOutOfReach", "a string's index does not fit its instruction's 16 bits (`const-string/jumbo` has 32)",
    "the class"),
    83: ("FieldOutOfReach", "a field's index does not fit 16 bits", "the class"),
    84: ("MethodOutOfReach", "a method's index does not fit 16 bits", "the class"),
    85: ("BranchOutOfReach", "an offset does not fit its field (`goto/16` and `goto/32` reach further than `goto`)",
    "the class"),
    86: ("Misaligned", "a payload at an odd address (`--align` mends it)", "the class"),
    87: ("TryTooLong", "the last covered instruction begins more than 65534 units after the try's start", "the class"),
    88: ("TooManyTries", "more than 65535 in a code", "the class"),
    89: ("HandlerTooFar", "a handler more than 65535 bytes after the start of the list, if 90 is not present",
    "the class"),
    90: ("TooBig", "the plain sum, below, is above 4294967295; in `align` also: a code would have more than "
    "2147483647 instructions", "0"),
    100: ("Word", "an invalid character, an invalid escape in a text, a text that is not closed, an unknown "
    "first word, mnemonic or keyword, or words that do not fit the form of the line: too many "
    "or too few, another keyword, missing or extra braces (a brace in the place of a register "
    "or another operand is 102), a text in quotes where another word is expected or the "
    "reverse; a label with more words on its line; in the first form, a `K:` whose K is not a " "number", "the line"),
    101: ("Name", "the first invalid word is where a name, a type, a prototype, a field, a method or a label "
    "is expected, also for a malformed escape in it; a line of a label whose label is malformed", "the line"),
    102: ("Number", "the first invalid word is where a number of its range, a register, bits, bytes or, in the "
    "first form, a target is expected", "the line"),
    103: ("Order", "the line is not allowed at this position: also a label outside the instructions of a code, "
    "a `catch` or a second `catchall` after a `catchall`, and a second first line of the same "
    "form. In the first form, K is not the next number, however large it is", "the line"),
    104: ("Twice", "a second superclass or source file; an interface that was given before; a member that is "
    "already in the same one of the four lists, by name and type or prototype (a field may be "
    "static and also an instance field); a label that the code already has", "the line"),
    105: ("Target", "a target that is not an instruction of its code (the end of a try may also be the position "
    "after the last one): a label that the code does not define, or that marks the position "
    "after the last instruction", "the line"),
    106: ("NotEnded", "the text ends inside a class or a code, or before its first line",
    "the last line; 0 for an empty text"),
    110: ("Name", "a name in the class, its code or its values is not of its form or kind", "the class"),
    111: ("MemberOrder", "a list of members does not strictly rise", "the class"),
    112: ("ClassOrder", "the class was defined before; its superclass or an interface is itself or comes later; an "
    "interface twice", "the class"),
    113: ("Values", "more values than static fields; a value more than 64 deep", "the class"),
    114: ("Operand", "no instructions, or more than 2147483647; an opcode, a register, a count, a literal or a "
    "name that its format does not accept; a register of a call beyond its count that is not 0; "
    "a payload's width, length or keys, more than 65535 targets, or not as many keys as targets "
    "(a listing can have only these of them: no instructions, or more than 2147483647; a "
    "payload's width, length or keys; more than 65535 targets)", "the class"),
    115: ("Target", "a branch or a switch targets no instruction, a payload, or itself where it may not", "the class"),
    116: ("PayloadUse", "an instruction that refers to no payload of its kind, or a switch's payload without "
    "exactly one user", "the class"),
    117: ("Try", "a try covers nothing, ends after the code or overlaps the one before; a handler is not an "
    "instruction; neither catch nor catch-all", "the class"),
    118: ("Register", "more ins than registers, or an instruction names a register that the code does not have",
    "the class"),
    255: ("Memory", "out of memory: a growth was refused", "0"),
}  # fmt: skip
