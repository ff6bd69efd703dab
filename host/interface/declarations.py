"""Reads the interface's declarations where they are written: the header, the proved source, the wrapper for Rust.

Each reader answers a dict of functions: their names with the declaration in one spelling, that of C.
"""

import re

# Types as they are spelt in the proved source and in the wrapper for Rust.
NUMBERS = {"u8": "uint8_t", "u32": "uint32_t", "u64": "uint64_t", "i32": "int32_t", "usize": "size_t"}


def declared(answer, name, parameters):
    """A declaration in C's spelling; parameters are (type, name)."""
    written = ", ".join(f"{kind}{'' if kind.endswith('*') else ' '}{named}" for kind, named in parameters)
    return f"{answer} {name}({written or 'void'})"


def without_comments(text):
    return re.sub(r"/\*.*?\*/", " ", text, flags=re.DOTALL)


# ---- include/czi.h

def header_functions(text):
    """The functions of the header."""
    found = {}
    for answer, name, parameters in re.findall(r"\b(\w+) (czi_\w+)\(([^()]*)\);", without_comments(text)):
        pairs = []
        for parameter in parameters.split(","):
            if parameter.strip() != "void":
                kind, named = re.fullmatch(r"(.*?[ *])(\w+)", parameter.strip(), re.DOTALL).groups()
                pairs.append((kind.strip(), named))
        found[name] = declared(answer, name, pairs)
    return found


def header_numbers(text):
    """The numbers that the header names."""
    bare = without_comments(text)
    named = re.findall(r"\b(CZI_\w+) = (\d+)", bare) + re.findall(r"^#define (CZI_\w+) (\d+)$", bare, re.MULTILINE)
    return {name: int(value) for name, value in named}


# ---- crates/czi/src

def source_functions(text):
    """The exported functions of the proved source. A slice is a pointer and a length."""
    found = {}
    exported = r'#\[unsafe\(no_mangle\)\]\s*pub extern "C" fn (\w+)\(([^()]*)\) -> (\w+)'
    for name, parameters, answer in re.findall(exported, text):
        pairs = []
        for named, kind in re.findall(r"(\w+): ([^,]*?)\s*(?:,|$)", parameters):
            pairs += source_parameter(named, kind)
        found[name] = declared(NUMBERS[answer], name, pairs)
    return found


def source_parameter(named, kind):
    """What a parameter of the proved source is in C."""
    if kind in NUMBERS:
        return [(NUMBERS[kind], named)]
    mutable, content = re.fullmatch(r"&(mut )?(.*)", kind).groups()
    pointer = f"{'' if mutable else 'const '}{NUMBERS[re.search(r'[a-z]+[0-9]+', content)[0]]} *"
    if re.fullmatch(r"\[\w+\]", content):
        return [(pointer, named), ("size_t", f"{named}_len")]
    return [(pointer, named)]


def source_lengths(text):
    """The lengths of the arrays that exported functions write, by function and parameter."""
    found = {}
    for name, parameters in re.findall(r'pub extern "C" fn (\w+)\(([^()]*)\)', text):
        for named, length in re.findall(r"(\w+): &mut \[\w+; (\d+)\]", parameters):
            found[name, named] = int(length)
    return found


# ---- host/czi/src/ffi.rs

def wrapper_functions(text):
    """The functions that the wrapper for Rust declares."""
    found = {}
    for name, parameters, answer in re.findall(r"pub fn (\w+)\(([^()]*)\) -> (\w+);", text):
        pairs = []
        for named, pointer, kind in re.findall(r"(\w+): (\*const |\*mut )?(\w+)", parameters):
            star = {"": "", "*const ": " *", "*mut ": " *"}[pointer]
            const = "const " if pointer == "*const " else ""
            pairs.append((f"{const}{NUMBERS[kind]}{star}", named))
        found[name] = declared(NUMBERS[answer], name, pairs)
    return found
