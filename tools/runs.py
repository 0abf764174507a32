#!/usr/bin/env python3
"""Writes what gcc computes for the runs that files of C ask for: python3 tools/runs.py FILE.c..

A line `// run: FUNCTION ARG..` of FILE.c becomes a line `FUNCTION ARG..: returns V after N steps` of FILE.runs. V is the result of the
function compiled with -fwrapv. N is counted in the compiled program: one at the entry of each function (gcc's -finstrument-functions), and
one at each test of a loop, put into the text between the brackets of each `while` and into the middle of each header of a `for`.
"""
import pathlib, re, subprocess, sys, tempfile

COUNTER = """#include <stdio.h>
static unsigned long steps;
static int __attribute__((no_instrument_function)) tested(void) { steps++; return 1; }
void __attribute__((no_instrument_function)) __cyg_profile_func_enter(void *function, void *site) { steps++; }
void __attribute__((no_instrument_function)) __cyg_profile_func_exit(void *function, void *site) { }
"""
PRINTS = {"unsigned long": "%lu", "unsigned": "%u", "long": "%ld", "default": "%d"}


def bracketed(text, start):
    """The place behind the bracket that closes the one at `start`, and the places of the semicolons right inside it."""
    depth, semicolons = 0, []
    for place in range(start, len(text)):
        depth += {"(": 1, ")": -1}.get(text[place], 0)
        if text[place] == ";" and depth == 1:
            semicolons.append(place)
        if depth == 0:
            return place + 1, semicolons
    raise ValueError("a bracket isn't closed")


def counted(text):
    """The text with a count in each test of a loop."""
    for found in reversed(list(re.finditer(r"\b(while|for)\s*\(", text))):
        start = found.end() - 1
        end, semicolons = bracketed(text, start)
        first, last = (start + 1, end - 1) if found.group(1) == "while" else (semicolons[0] + 1, semicolons[1])
        test = text[first:last].strip() or "1"
        text = f"{text[:first]}tested() && ({test}){text[last:]}"
    return text


def run(text, words):
    """The line of a run of these words."""
    arguments = ", ".join(w + ("u" if int(w) >= 2**63 else "") for w in words[1:] if w != "--")
    call = f"{words[0]}({arguments})"
    prints = ", ".join(f'{kind}: "returns {form} after "' for kind, form in PRINTS.items())
    main = f"""
int __attribute__((no_instrument_function)) main(void) {{
    __typeof__({call}) result = {call};
    printf(_Generic(result, {prints}), result);
    printf("%lu steps", steps);
}}
"""
    with tempfile.TemporaryDirectory() as room:
        source, program = pathlib.Path(room) / "main.c", pathlib.Path(room) / "main"
        source.write_text(COUNTER + text + main)
        subprocess.run(["gcc", "-std=c11", "-fwrapv", "-finstrument-functions", "-w", "-o", program, source], check=True)
        said = subprocess.run([program], check=True, capture_output=True, text=True).stdout
    return f"{' '.join(words)}: {said}\n"


for name in sys.argv[1:]:
    source = pathlib.Path(name)
    text = source.read_text()
    wanted = re.findall(r"^// run: (.*)$", text, re.M)
    text = counted(re.sub(r"//.*", "", text))
    source.with_suffix(".runs").write_text("".join(run(text, words.split()) for words in wanted))
