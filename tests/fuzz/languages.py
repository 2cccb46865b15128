"""What edits of interface files know of each language."""
import re
from typing import NamedTuple

PLAIN = r"|[A-Za-z_][A-Za-z0-9_]*|[0-9][A-Za-z0-9_]*|[ \t\n\v\f\r]+|."
MARKS = ["{", "}", "(", ")", "[", "]", "<", ">", ";", ",", ":", "=", "*", "-", "+", "/*", "*/", "//", "%", "#", "# 1", "#line 2", "\n%", "\n#", "$", "'", "\"", "\\", ".", "\0", "\x80"]


class Language(NamedTuple):
    """How a text falls into tokens; words; those of them that are types; marks; a declaration, and what may stand in its place,
    by a number and by how many times something is there. A declaration is found in one step an octet: it begins where a word
    does, and what stands between its brackets is short."""
    token: re.Pattern
    words: list
    types: list
    marks: list
    declared: re.Pattern
    forms: callable


def onc_forms(found, number, many):
    """Other forms of a declaration: a count, a pointer, a sign."""
    ty, name = found[1], found[4]
    return [f"{ty} {name}", f"{ty} *{name}", f"{ty} {name}<>", f"{ty} {name}<{number}>", f"{ty} {name}[{number}]", f"string {name}<{number}>",
            f"opaque {name}[{number}]", f"opaque {name}<{number}>", f"unsigned {ty} {name}", f"struct {ty} {name}", "void", f"{ty} {'*' * many}{name}", f"{ty} {name}{'[1]' * many}"]


def mig_forms(found, number, many):
    """Another type in a `type` statement, or another parameter."""
    lead, name, ty = found[1], found[2], found[3]
    if not lead:
        return [f"{way}{each} : {ty}" for way in ("", "in ", "out ", "inout ", "requestport ") for each in (name, "p")]
    meanings = [ty, f"array[{number}] of {ty}", f"array[*:{number}] of {ty}", f"struct[{number}] of {ty}", f"({ty}, {number})", f"({ty}, 32)", "mach_port_t",
                "array[*:4] of char", f"array[({number} + 7) / 8 - 1] of byte", f"array[{'(' * many}1{')' * many}] of int", f"array[1{' + 1' * many}] of int"]
    return [f"{lead}{name} = {meaning}" for meaning in meanings]


def corba_forms(found, number, many):
    """Another member, typedef or attribute."""
    ty, name = found[1], found[2]
    return [f"{ty} {name}", f"sequence<{ty}> {name}", f"sequence<{ty}, {number}> {name}", f"sequence<sequence<{ty}, 4>> {name}", f"{ty} {name}[{number}]",
            f"{ty} {name}[2][{number}]", f"string<{number}> {name}", f"unsigned {ty} {name}", f"{ty} {name}, {name}2", f"{ty} ::{name}", f"attribute {ty} {name}",
            f"const long {name} = {number} << 2 | 1", f"{ty} {name}{'[1]' * many}", f"{'sequence<' * many}{ty}{'> ' * many}{name}", f"{ty} {name}[1{' + 1' * many}]",
            f"{ty} {name}[{'(' * many}1{')' * many}]", f"const long {name} = {'- ' * many}1"]


LANGUAGES = {
    "onc": Language(
        re.compile(r"/\*.*?\*/" + PLAIN, re.S),
        ["typedef", "const", "enum", "struct", "union", "switch", "case", "default", "program", "version", "void", "opaque", "string", "unsigned",
         "int", "long", "short", "char", "hyper", "bool", "float", "double", "quadruple", "TRUE", "FALSE", "u_int", "u_char", "x", "F"],
        ["int", "long", "short", "char", "hyper", "bool", "unsigned", "u_int", "u_char", "u_short", "u_long", "float"],
        MARKS,
        re.compile(r"(?<!\w)(\w+)( +)(\*?)([A-Za-z_]\w*)(\[\w*\]|<\w*>)?(?=;)"), onc_forms),
    "mig": Language(
        re.compile(r"/\*.*?\*/|\"[^\"\n]*\"|<[^>\n]*>" + PLAIN, re.S),
        ["subsystem", "type", "routine", "simpleroutine", "skip", "userprefix", "serverprefix", "import", "uimport", "simport", "array", "struct", "of",
         "requestport", "in", "out", "inout", "Routine", "SKIP", "procedure", "polymorphic", "retcode", "x", "F"],
        ["char", "byte", "short", "int", "unsigned", "mach_port_t", "MACH_MSG_TYPE_CHAR", "MACH_MSG_TYPE_BYTE", "MACH_MSG_TYPE_INTEGER_16",
         "MACH_MSG_TYPE_INTEGER_32", "MACH_MSG_TYPE_COPY_SEND"],
        [*MARKS, "*:", "/", "<a>", "\"a b\"", "2147483547", "2147483548"],
        re.compile(r"(?<!\w)(type\s+)?([a-z_]\w*)\s*[=:]\s*((?:array|struct)\s*\[[^\]]{0,99}\]\s*of\s+\w+|\([^()]{0,99}\)|[a-z_]\w*)(?=\s*[;)])", re.I), mig_forms),
    "corba": Language(
        re.compile(r"/\*.*?\*/|//[^\n]*|\"[^\"\n]*\"|'\\?[^\n]'|::|<<|>>" + PLAIN, re.S),
        ["typedef", "const", "enum", "struct", "union", "switch", "case", "default", "module", "interface", "exception", "raises", "attribute", "readonly", "oneway",
         "in", "out", "inout", "void", "octet", "string", "sequence", "unsigned", "long", "short", "char", "boolean", "TRUE", "FALSE", "float", "double", "wchar",
         "any", "Object", "fixed", "Module", "_struct", "x", "F"],
        ["long", "short", "char", "boolean", "octet", "string", "unsigned", "long long", "unsigned long", "unsigned short", "float", "sequence<long>", "string<3>"],
        [*MARKS, "::", ">>", "<<", "|", "^", "&", "~", "'a'", "'\\n'", "'''", "'\\x41'", "\"a b\"", "1 << 63", "1 << 64", "-1", "5 / 0"],
        re.compile(r"(?<![\w:])([A-Za-z_][\w:]*(?:<[\w ,<>]{0,99}>)?) +([A-Za-z_]\w*)((?:\[[^\]]{0,99}\]){0,40})(?=;)"), corba_forms),
}
