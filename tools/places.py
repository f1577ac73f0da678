#!/usr/bin/env python3
"""Lists the places of the seven points of docs/DESIGN-PASS.md in crates/*/src, and counts them.

    python3 tools/places.py           of the files as they stand
    python3 tools/places.py COMMIT    of a commit
    python3 tools/places.py COMMIT -q the counts alone

A place is a line that one of the patterns of its point finds, outside comments and tests.
"""
import pathlib
import re
import subprocess
import sys

ROOT = pathlib.Path(__file__).resolve().parent.parent

POINTS = {
    "1 an answer by a flag, a code or a value that stands for none": [
        # an enum of a value and its lack
        r"^(pub )?enum (Number|Written|Demand|Numeral|Spelled|Kind)\b",
        r"^    (Other|Outside|Refused\(u8\)|Refused \{ number)",
        # a flag or a refusal's number beside a value
        r"^    (pub )?(refusal|number): u8,",
        r"^    (pub )?(fine|fit|read|more|failed): bool,",
        # a byte in the place of a letter, a number in the place of a sheet
        r"^    (pub )?letter: u8,|\bsheet: u32\b",
        # refusals and success told by numbers
        r"Refused\([0-9]+\)|refusal: [1-9][0-9]*,|refus(e|ed)[a-z_]*\((f, |self, )?[1-9][0-9]*|no_report\([1-9]|number: [1-9]|"
        r"(refusal|number) (==|!=) 0|^ +return (5|7|8|9|1[0-9]);$",
        # whether a writing went well
        r"fn (say|print|play)[a-z_]*<.*-> bool",
        # a value outside the range for none
        r"^    16$|start: 0, end: 0|\bend <= [a-z.]*start\b|\bto <=? from\b",
    ],
    "2 twins": [
        r"fn (read_road|read_period|read_first_period|write_road|write_period|write_row|to_second|to_first|freeway_to_second|freeway_to_first|"
        r"number_in_second|number_in_first|second_sheet|first_sheet|segments_in|demand_in|outlet_in)\b(?!.*extern)",
        r"fn (wide|wide_byte|least|most|less|less_wide)\b",
        r"fn (buffer|large_buffer|line_room|filled)\b",
        r"fn (play_line|main|level_by|service_of|fresh_on|with_sheet)\b",
        r"fn (is_start|is_segment|is_opening|is_entry|is_road|is_period)\b",
        r"fn (read_row|read_sections|put_letter|letter_byte)\b",
        r"enum (Service|Level)\b",
    ],
    "3 loops that count by hand": [r"^ *(let [a-z]+ = )?(while|loop)\b"],
    "4 equality, order, conversion and printing by hand": [
        r"fn (wide|wide_byte|least|most|less|less_wide|same|letter_byte|put_letter|program|digit|put_bits|say_refused|print_refusal|"
        r"complain_of_refusal|say_number|print_named)\b",
        r"fn (density_in|queued_in|refusal_of|count_or_offset|call_of|writing_of|reading_of|say_[a-z]+_field|say_reason)\b",
    ],
    "5 facts and parameters that travel together": [
        r"GoodConditions|HasShortcuts|GoodSplit|GoodSections n row|GoodSection s\b",
        r"start ≤ result\.end",
        r"^    (taken|made): u32,|fn [a-z_]+.*\btaken: u32, made: u32",
        r"\brow: &(mut )?\[u32; 835\]|\bcells: &(mut )?\[u32; 448\]",
    ],
    "6 buffers with a length beside, packed rows, places for parts": [
        r"\[u32; (835|448)\]",
        r"n: usize, row: \[u32; 384\]|\bstart: usize|\bend: usize|\blength: usize,|\bcount: usize,",
        r"\[(b[0-9]|[a-z.]+start\.\.[a-z.]+end)\]",
    ],
    "7 switches on what to do": [
        r"\b(is_road|is_first|in_word): bool|^    match way|if sheet == 0|\bif in_word",
    ],
}


def files(commit):
    if commit:
        names = subprocess.run(["git", "ls-tree", "-r", "--name-only", commit, "crates"], cwd=ROOT, capture_output=True, text=True, check=True)
        for name in names.stdout.split():
            if "/src/" in name and name.endswith(".rt"):
                text = subprocess.run(["git", "show", f"{commit}:{name}"], cwd=ROOT, capture_output=True, text=True, check=True)
                yield name, text.stdout
    else:
        for path in sorted(ROOT.glob("crates/*/src/**/*.rt")):
            yield str(path.relative_to(ROOT)), path.read_text()


def main():
    arguments = [a for a in sys.argv[1:] if a != "-q"]
    quiet = "-q" in sys.argv
    sources = list(files(arguments[0] if arguments else None))
    for point, patterns in POINTS.items():
        found = []
        for name, text in sources:
            for number, line in enumerate(text.splitlines(), 1):
                if line.lstrip().startswith(("//", "ghost use")):
                    continue
                if any(re.search(p, line) for p in patterns):
                    found.append(f"  {name}:{number}: {line.strip()}")
        print(f"{point}: {len(found)}")
        if not quiet:
            print("\n".join(found))


main()
