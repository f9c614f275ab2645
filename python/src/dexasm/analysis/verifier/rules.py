"""The rules of dexasm-lint, those of files and those of code: of each its word, the part of a page that it belongs to,
and what is wrong where it is broken. Parts are of the page "Dalvik Executable format"; in CODE_RULES numbers are of the
page "Dalvik bytecode constraints".
"""
FILE_RULES = {
    "class-flags": ("access_flags", "a class has flags above 0xffff"),
    "field-flags": ("access_flags", "a field has flags above 0xffff"),
    "one-of-public-protected-private": ("access_flags", "more than one of public, protected and private"),
    "volatile-and-final": ("access_flags", "a field of a class is volatile and final"),
    "method-flags": ("access_flags", "a method has flags above 0xffff that aren't constructor or "
     "declared-synchronized"),
    "constructor-flag": ("access_flags", "a method is flagged constructor, and isn't <init> or <clinit>"),
    "init-flags": ("access_flags", "<init> has flags other than public, protected, private, varargs, strict and "
     "synthetic"),
    "abstract-flags": ("access_flags", "an abstract method is private, static, final, synchronized, native or "
     "strict too"),
    "code-missing": ("encoded_method", "a method has no code, and isn't native or abstract"),
    "code-unwanted": ("encoded_method", "a method has code, and is native or abstract"),
    "field-list": ("class_data_item", "a field is in the list of static fields, and isn't static, or the other "
     "way round"),
    "method-list": ("class_data_item", "a method is in the list of direct methods, and isn't static, private, "
     "<init> or <clinit>, or the other way round"),
    "in-both-lists": ("class_data_item", "a method is direct and virtual"),
    "method-name": ("MemberName", "a method's name begins with <, and isn't <init> or <clinit>"),
    "constructor-signature": ("method_id_item", "<init> returns something, or <clinit> isn't ()V"),
    "value-type": ("class_def_item", "a static field's value is of another type"),
    "value-kind": ("encoded_value", "a static field's value is an enum, a field, a method or an array"),
    "outs-size": ("code_item", "outs are more than 5 and more than registers"),
    "superclass-missing": ("class_def_item", "a class other than java.lang.Object has no superclass"),
}  # fmt: skip
CODE_RULES = {
    "register-kind": ("B1", "a register holds another kind of value than the instruction takes"),
    "ways-differ": ("B1, B7", "a register is read that holds one kind of value on one way and another one on another"),
    "register-unset": ("B3", "a register is read that isn't set on each way"),
    "pair-broken": ("B2, B18", "a half of a pair of registers is read alone, or is no half of that pair any more"),
    "pair-outside": ("A23", "a pair begins at the last register of the code"),
    "uninitialized-use": ("B6, B8", "an object is used before its constructor is called"),
    "constructor-call": ("B5", "a constructor is called on what is no new object"),
    "constructor-return": ("B8", "a constructor returns without having called another one"),
    "field-static": ("A10, A11", "iget or iput names a static field, or sget or sput an instance field"),
    "field-type": ("B1", "a field's type isn't the instruction's"),
    "call-kind": ("A12 to A16, B4", "a method is called by another kind of invoke than its own"),
    "call-init": ("A14", "<clinit> is called, or <init> by another invoke than invoke-direct"),
    "argument-count": ("B1", "a call is given more or fewer registers than its method takes"),
    "argument-type": ("B9", "an argument can't be of the parameter's type"),
    "receiver-type": ("B10", "an object can't be of the class whose method is called or whose field is named"),
    "stored-type": ("B13 to B15", "what is stored can't be of the type of the field or of the array's elements"),
    "result-place": ("B19, B20", "a move-result isn't right behind a call, or something else leads to it"),
    "result-kind": ("B20", "a move-result takes another kind of value than its call answers"),
    "exception-place": ("B21", "a move-exception isn't the first instruction of a handler, or something else "
     "leads to it"),
    "catch-type": ("code_item", "a handler is of a class of the file, an array or a primitive type that is no "
     "Throwable"),
    "falls-off": ("B17", "the flow runs past the last instruction"),
    "payload-reached": ("B22", "the flow runs into the data of a switch or of an array"),
    "switch-keys": ("A7", "the keys of a packed-switch run past the greatest int"),
    "return-kind": ("B11", "a return is of another kind than the method's type"),
    "return-type": ("B11", "what is returned can't be of the method's type"),
    "return-range": ("B11", "what is returned lies in a range that the method's type doesn't have"),
    "throw-type": ("B16", "what is thrown is no Throwable"),
    "array-kind": ("B1", "an instruction for arrays is given something else, or an array of other elements"),
    "array-data": ("B1", "data of an array is of another width than its elements, or these are references"),
    "array-type": ("A21, B1", "new-array or filled-new-array names a type that is no array, or the latter one of "
     "long or double"),
    "new-type": ("A20", "new-instance names an array, a primitive type, an interface, an abstract class or "
     "java.lang.Class"),
    "cast-type": ("A17, A18", "check-cast or instance-of names a primitive type"),
    "ins-count": ("code_item", "the ins of a code aren't as many as the method's parameters take"),
    "outs-short": ("code_item", "the outs of a code aren't enough for a call"),
}  # fmt: skip
PAGES = {rule: f"dex-format, {part}" for rule, (part, _) in FILE_RULES.items()}
PAGES |= {rule: part for rule, (part, _) in CODE_RULES.items()}
SENTENCES = {rule: sentence for rule, (_, sentence) in (FILE_RULES | CODE_RULES).items()}


def manual(rules: dict[str, tuple[str, str]]) -> str:
    """The rules as a manual lists them."""
    return "\n".join(f"  {rule}  {sentence}" for rule, (_, sentence) in rules.items())
