"""One program in many files, each another than the written one in one way alone: `strip` makes one file of them all."""
import random
from typing import Any

from .listing import parse
from .loose import LooseDraft, made_class
from .making import CHOICES, Layout
from .model import Class

# With an odd count of units and tries, handlers of two kinds, a call of fewer than five registers, values that have
# longer forms, and equal items: two bodies, two arrays, and the parameters of a method that are a class's interfaces.
PROGRAM = rb"""dex 035 listing 2
class LA; 0x1
super Ljava/lang/Object;
implements LI;
source "A.java"
static a I 0x9 = int 300
static b F 0x9 = float 3f800000
static c C 0x9 = char 7
static d [I 0x9 = array { int -1 long 5 string "" }
instance e J 0x2
direct m (LI;)V 0x9
code 2 1 1
invoke-static { v0 } LA;->m(LI;)V
return-void
:f
nop
nop
goto :f
:g
const-string v0 "g"
:end
try :f :g
catch LI; :f
catchall :g
try :g :end
catchall :g
end code
virtual n ()V 0x1
code 1 1 0
return-void
end code
end class
class LB; 0x0
static a I 0x9 = int 300
static b F 0x9 = float 3f800000
static c C 0x9 = char 7
static d [I 0x9 = array { int -1 long 5 string "" }
virtual n ()V 0x1
code 1 1 0
return-void
end code
end class
"""
UNUSED = [("string", "zz"), ("type", "LZ;"), ("method", ("LA;", "a", ("I", ())))]


class Zeros(random.Random):
    """Of several it chooses the first: what is left of chance where a file shall be odd in one way alone."""

    def choice(self, seq: Any) -> Any:
        return seq[0]


def spelled() -> tuple[list[Class], list[tuple[str, bytes]]]:
    """The program, and its files: in which way each is another, and its bytes."""
    classes: Any = parse(PROGRAM)  # (no refusal)
    plain = [made_class(Zeros(), made) for made in classes]
    files = [("nothing shared", LooseDraft(plain, Layout(), ()).file())]
    files.append(("names that nothing uses", LooseDraft(plain, Layout(), UNUSED).file()))
    unused = [made_class(random.Random(1), made) for made in classes]
    files.append(("registers that a call doesn't count", LooseDraft(unused, Layout(), ()).file()))
    for choice in CHOICES:
        # (odd as often as there is a choice, whatever its share)
        layout = Layout(random.Random(1), 8.0, choice)
        files.append((choice, LooseDraft(plain, layout, ()).file()))
    files.append(("all at once", LooseDraft(unused, Layout(random.Random(1), 8.0), UNUSED).file()))
    return classes, files
