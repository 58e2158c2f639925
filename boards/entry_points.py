"""entry_points.py MODULE HEADER FOLDER: the proved module with entry points for any processor.

The module's entry points (cvr_..) follow the calling convention of x86-64. The functions that they
call (culvertroost_c::..::cvr_..) take addresses and plain numbers only: a slice is an address and a
64-bit length; a struct of one or two numbers is these numbers, and any other is its address. An answer
of two numbers comes as the two, any other struct at an address that comes first. Written to FOLDER:

  module.ll       the module without its entry points; the functions below them have C names, and one
                  whose answer is two numbers has a function before it that puts them at an address
  entry_points.c  the header's functions over those, for the board's own C compiler
  functions       the names of the header's functions, one a line

Whatever is not as described here ends the program, so that a changed header or module is an error.
"""
import re
import sys
from pathlib import Path

BELOW = "culvertroost_module_"  # before the C name of a function below an entry point


def fail(text):
    sys.exit("boards/entry_points.py: " + text)


# ---- the header


def declarations(header):
    """The header's declarations, each on one line, without comments and lines of the preprocessor."""
    text = re.sub(r"/\*.*?\*/", " ", header, flags=re.S)
    text = re.sub(r"\\\n", " ", text)
    text = re.sub(r"^#ifdef __cplusplus$.*?^#endif$", "", text, flags=re.M | re.S)
    text = re.sub(r"^\s*#.*$", "", text, flags=re.M)
    found, start, depth = [], 0, 0
    for at, sign in enumerate(text):
        depth += {"{": 1, "}": -1}.get(sign, 0)
        is_body = sign == "}" and text[start:].lstrip().startswith("static inline ")
        if depth == 0 and (sign == ";" or is_body):
            found.append(" ".join(text[start : at + 1].split()))
            start = at + 1
    if text[start:].strip():
        fail("the header's end is not understood: " + " ".join(text[start:].split())[:80])
    return found


NO_CALL = r"enum \w+ \{[^{}]*\};|static inline .*\}|CVR_LAYOUT\([^()]*\);"


def functions_of(header):
    """The functions that the header declares: a name, and what goes in and comes out."""
    structs, functions = {}, {}
    for text in declarations(header):
        struct = re.fullmatch(r"typedef struct (cvr_\w+) \{([^{}]*)\} \1;", text)
        call = re.fullmatch(r"(\w+) (cvr_\w+)\(([^()]*)\);", text)
        if struct:
            structs[struct[1]] = [field for line in struct[2].split(";") if line.strip() for field in fields_of(line, structs)]
        elif call and not call[2] in functions:
            functions[call[2]] = Function(*call.groups(), structs)
        elif not re.fullmatch(NO_CALL, text):
            fail("the header has a declaration that is not understood: " + text[:120])
    if not functions:
        fail("the header declares no function")
    return functions


NUMBERS = {"uint8_t": "i8", "uint16_t": "i16", "uint32_t": "i32", "uint64_t": "i64"}


def fields_of(line, structs):
    """The numbers that a line of a struct declares: a type in the module, and how C names it. An array is no number."""
    kind, names = line.split(None, 1)
    for name in names.split(","):
        name = name.strip()
        if kind in structs and re.fullmatch(r"\w+", name):
            yield from ((inner, f"{name}.{path}") for inner, path in structs[kind])
        else:
            yield NUMBERS.get(kind) if re.fullmatch(r"\w+", name) else None, name


class Function:
    """A function of the header. Each of `passed` is what one value below the entry point is made of:
    its type in the module and in C, the expression, and the line that prepares it."""

    def __init__(self, result, name, parameters, structs):
        self.result, self.name, self.parameters = result, name, parameters
        self.is_plain = result == "uint32_t"
        self.pair = [kind for kind, _ in structs.get(result, [])]
        self.pair = self.pair if len(self.pair) == 2 and all(self.pair) else None
        if not self.is_plain and result not in structs:
            fail(f"{name}: a result of type {result} is not understood")
        self.passed, self.slices = [], 0
        rest = [text.strip() for text in parameters.split(",")]
        while rest:
            self.take(rest, structs)

    def take(self, rest, structs):
        """Takes the next parameter, or a pointer and its length."""
        text = rest.pop(0)
        kind, _, name = text.rpartition(" ")
        pointer = re.fullmatch(r"(?:const )?(\w+) \*(\w+)", text)
        if pointer and pointer[1] in {*structs, "uint8_t", "uint32_t"}:
            length = re.fullmatch(r"size_t (\w+)", rest.pop(0) if rest else "")
            if not length:
                fail(f"{self.name}: the pointer {text} has no length after it")
            self.slices += 1
            self.passed.append(("ptr", "const void *", f"AT({pointer[2]})", None))
            self.passed.append(("i64", "uint64_t", length[1], None))
        elif re.fullmatch(r"(uint16_t|uint32_t) \w+", text):
            self.passed.append(("i" + kind[4:6], kind, name, None))
        elif re.fullmatch(r"size_t \w+", text):
            self.passed.append(("i64", "uint64_t", name, None))
        elif kind in structs and re.fullmatch(r"\w+", name):
            if len(structs[kind]) <= 2 and all(number for number, _ in structs[kind]):
                for number, path in structs[kind]:
                    self.passed.append((number, f"uint{number[1:]}_t", f"{name}.{path}", None))
            else:
                self.passed.append(("ptr", kind + " *", "&" + name, None))
        else:
            fail(f"{self.name}: the parameter {text} is not understood")

    def signature(self):
        """Result and parameters of the function below the entry point, in the module."""
        types = [passed[0] for passed in self.passed]
        if self.pair:
            return f"{{ {', '.join(self.pair)} }}", types
        return ("i32", types) if self.is_plain else ("void", ["ptr"] + types)

    def over_pair(self, callee):
        """The function that puts the two numbers of an answer at an address, for C to call."""
        at = {"i32": 4, "i64": 8}.get(self.pair[1])
        if at is None or self.pair[0] not in ("i32", "i64"):
            fail(f"{self.name}: an answer of {self.pair} is not understood")
        types = [passed[0] for passed in self.passed]
        given = ", ".join(f"{kind} %a{number}" for number, kind in enumerate(types))
        form = self.signature()[0]
        at = 8 if "i64" in self.pair else 4
        return "\n".join([
            f"define void @{BELOW}{self.name}(ptr noalias noundef %answer{', ' if given else ''}{given}) #0 {{",
            f"  %pair = call {form} @\"{callee}\"({given})",
            f"  %first = extractvalue {form} %pair, 0",
            f"  %second = extractvalue {form} %pair, 1",
            f"  store {self.pair[0]} %first, ptr %answer",
            f"  %place = getelementptr i8, ptr %answer, i64 {at}",
            f"  store {self.pair[1]} %second, ptr %place",
            "  ret void", "}", ""])

    def in_c(self):
        """The entry point in C."""
        types = [passed[1] for passed in self.passed]
        values = ", ".join(passed[2] for passed in self.passed)
        lines = [passed[3] for passed in self.passed if passed[3]]
        below = BELOW + self.name
        if self.is_plain:
            declared = f"{self.result} {below}({', '.join(types)});"
            lines += [f"return {below}({values});"]
        else:
            declared = f"void {below}({', '.join([self.result + ' *'] + types)});"
            lines = [f"{self.result} answer;"] + lines
            lines += [f"{below}(&answer, {values});", "return answer;"]
        body = "\n".join("    " + line for line in lines)
        return f"{declared}\n{self.result} {self.name}({self.parameters})\n{{\n{body}\n}}\n"


C_HEAD = """/* The entry points of the library for this board. Made from the header by boards/entry_points.py. */
#include "culvertroost.h"

/* The address of a range that is lent, as the module's own entry points pass it: never null. */
#define AT(pointer) ((pointer) == NULL ? (const void *)(uintptr_t)4096 : (const void *)(pointer))
"""


# ---- the module


DEFINED = re.compile(
    r"^define (internal )?(?:noundef )?(?:zeroext )?([^@\n]*?) @(\"[^\"\n]+\"|\w+)\((.*)\) #0 \{$"
)
OTHER = (
    r"(; .*|source_filename = .*|@static\.\d+ = private unnamed_addr constant (?:\[\d+ x i8\] c\"[^\"]*\"|\[0 x i8\] zeroinitializer), align \d+|declare .* @llvm\.(memmove|memcpy|memset|ctpop|trap|arithmetic\.fence)\b.*"
    r"|![\w.]+ = .*)?"
)
# What would depend on the processor below the entry points, but for names and for two values together. In
# registers these are the same on each board. In memory two numbers lie as in C, 64 bits at a multiple of 8;
# behind an address, which is not as wide on each board, only 64 bits lie where they lie on x86-64.
NAME = re.compile(r'@"[^"]*"')
NUMBER = r"(?:i1|i8|i16|i32|i64|float)"
TOGETHER = re.compile(
    rf"\b(?:call|ret|extractvalue|insertvalue)(?: noundef)? \{{ (?:ptr|{NUMBER}), {NUMBER} \}}"
    rf"|\b(?:load|store) \{{ (?:ptr, i64|{NUMBER}, {NUMBER}) \}}"
)
DEPENDS = re.compile(r"\b(ptrtoint|inttoptr|ptrtoaddr|asm|va_arg|addrspace)\b|\{|<")


class Module:
    """The module's parts: functions by name (the match of the first line, the lines), other lines."""

    def __init__(self, text):
        self.functions, self.others, self.targets = {}, [], 0
        lines = iter(text.split("\n"))
        for line in lines:
            if line.startswith("define "):
                self.add(line, lines)
            elif line.startswith("target "):
                self.targets += line == 'target triple = "x86_64-unknown-linux-gnu"'
            elif line.startswith("attributes "):
                self.others.append(self.attributes_for_all(line))
            elif re.fullmatch(OTHER, line):
                self.others.append(line)
            else:
                fail("the module has a line that is not understood: " + line[:120])
        if self.targets != 1:
            fail("the module is not one for x86-64")

    def add(self, line, lines):
        head = DEFINED.match(line)
        if not head:
            fail("the module defines a function in a form that is not understood: " + line[:120])
        body = []
        for line in lines:
            if line == "}":
                break
            body.append(line)
        name = head[3].strip('"')
        if name in self.functions:
            fail("the module defines a function twice: " + name)
        self.functions[name] = (head, body)

    def attributes_for_all(self, line):
        """The attributes without the processor's name."""
        line = line.replace(' "target-cpu"="x86-64"', "")
        if "target-" in line or "tune-" in line:
            fail("the module has attributes of one processor: " + line)
        return line


def types_of(parameters):
    """The types of a function's parameters in the module, without attributes and names."""
    return [text.split()[0] for text in parameters.split(", ")] if parameters else []


def below(module, function):
    """The name of the one function below an entry point; it has the form that the header asks for."""
    pattern = r"culvertroost_c::\w+::" + function.name
    names = [name for name in module.functions if re.fullmatch(pattern, name)]
    if len(names) != 1:
        fail(f"the module has {len(names)} functions below {function.name}, not one")
    head, _ = module.functions[names[0]]
    found = (head[2], types_of(head[4]))
    if not head[1] or found != function.signature():
        fail(f"{names[0]} has the form {found}, and the header asks for {function.signature()}")
    return names[0]


def check_entry_point(module, function, callee):
    """The entry point calls the one function below it, with each slice as a pointer and a length."""
    _, body = module.functions[function.name]
    calls = [line for line in body if re.search(r"\bcall\b", line)]
    if len(calls) != 1 or f'@"{callee}"(' not in calls[0]:
        fail(f"the entry point {function.name} doesn't call {callee} alone")
    text = "\n".join(body)
    slices = re.findall(
        r"(%r\d+) = icmp eq ptr %a(\d+), null\n  (%r\d+) = zext i1 \1 to i64\n  (%r\d+) = mul i64 \3, 4096\n"
        r"  (%r\d+) = getelementptr i8, ptr %a\2, i64 \4\n  store ptr \5, ptr (%r\d+), align 8\n"
        r"  (%r\d+) = getelementptr i8, ptr \6, i64 8\n  store i64 %a(\d+), ptr \7, align 8", text
    )
    if len(slices) != function.slices or any(int(s[7]) != int(s[1]) + 1 for s in slices):
        fail(f"the entry point {function.name} doesn't make {function.slices} slices")


def check_all(module, functions):
    """The functions below the entry points, by name. The entry points are the header's functions, and
    nothing else is seen from outside or depends on the processor."""
    entry_points = {name for name, (head, _) in module.functions.items() if not head[1]}
    for name in sorted(entry_points ^ set(functions)):
        fail(f"{name} is in the {'module' if name in entry_points else 'header'} only")
    found = {}
    for name, function in functions.items():
        callee = below(module, function)
        check_entry_point(module, function, callee)
        found[callee] = name
    for name, (head, body) in module.functions.items():
        wrong = [line for line in body if DEPENDS.search(TOGETHER.sub(" ", NAME.sub("", line).split(", !")[0]))]
        if head[1] and wrong:
            fail(f"{name} depends on the processor: {wrong[0].strip()}")
    return found


def in_c_form(line, function):
    """The first line of a function below an entry point, for C to call. A 32-bit result is extended as
    callers on RISC-V expect it. A struct's address is that of the entry point's own memory, which nothing
    else points to: on x86-64 the compiler sees that by itself."""
    line = line.replace("define internal ", "define ")
    line = line.replace("noundef i32 @", "noundef signext i32 @")
    first = 0 if function.pair or function.is_plain else 1
    for number, passed in enumerate(function.passed, first):
        if passed[0] == "ptr" and passed[2].startswith("&"):
            line = re.sub(rf"\bptr noundef (%a{number})\b", r"ptr noalias noundef \1", line)
    return line


def without_entry_points(module, found, functions):
    """The module for any processor."""
    text = list(module.others)
    for name, (head, body) in module.functions.items():
        function = functions.get(found.get(name))
        if function and function.pair:
            text.append(function.over_pair(name))
        if head[1]:
            is_called = function and not function.pair
            text += [in_c_form(head[0], function) if is_called else head[0], *body, "}", ""]
    text = "\n".join(text)
    for name, short in found.items():
        if not functions[short].pair:
            text = text.replace(f'@"{name}"', "@" + BELOW + short)
    return text


def main():
    if len(sys.argv) != 4:
        fail("usage: entry_points.py MODULE HEADER FOLDER")
    module = Module(Path(sys.argv[1]).read_text())
    functions = functions_of(Path(sys.argv[2]).read_text())
    folder = Path(sys.argv[3])
    found = check_all(module, functions)
    folder.joinpath("module.ll").write_text(without_entry_points(module, found, functions))
    in_c = [C_HEAD] + [function.in_c() for function in functions.values()]
    folder.joinpath("entry_points.c").write_text("\n".join(in_c))
    folder.joinpath("functions").write_text("".join(name + "\n" for name in functions))


main()
