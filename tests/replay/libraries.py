"""The C library for a machine, from the proved module, and from that module with one instruction changed."""
import os
import re

from machines import build, kit

# An order's number is then two above the last, and not one.
CHANGED = re.compile(r'(?ms)^(define [^\n]*@"column::effect::order_effect"\(.*?= add i32 %\w+, )1$')


def changed(each):
    """The module with one instruction changed."""
    text, count = CHANGED.subn(r"\g<1>2", each.text)
    if count != 1:
        raise kit.Failed("the instruction that is to be changed is not found")
    return each._replace(text=text)


def made(each, name, folder):
    """The library of a module for a machine, in a folder of its own."""
    os.makedirs(folder)
    return build.library(each, name, folder)
