#!/usr/bin/env python3
"""Counts the places of each point of docs/DESIGN-PASS.md in crates/*/src: design_count.py [-v] [FOLDER]. With -v each place is shown."""
import glob
import re
import sys

POINTS = {
    '1 refusals and flags as numbers': [
        r'-> Refusal\b',                                  # 0 for accepted
        r'^    pub refusal: Refusal,',                    # beside a value
        r'fn (head_fault|step_fault|faulty_step)\b',      # 0 or N for none
        r'-> isize',                                      # below 0 for failed
        r'^pub enum AfterRead',                           # shaped as a Result
        r'^(pub )?fn \w+_fits?\(',                        # a test, and a reading that asks for it
        r'^    pub kind: Kind,',                          # a kind beside what it has
    ],
    '2 twins': [
        r'fn (wrapping_mul|clear|copy_front|larger|smaller|within)\(',           # beside the library
        r'fn (le16|le32|le64)\(',
        r'fn (bad_output|bad_inputs)\(',
        r'fn (add_rows|subtract_rows|multiply_rows|multiply_low_rows)\(',
        r'fn (in_short_lanes|in_middle_lanes|in_long_lanes)\(',
        r'fn (agreeing_apart|agreeing_in_turn)\(',
        r'fn (all_rows|listed_rows|run_all|run_listed)\(',
        r'fn (save_outputs|matching_lanes)\(',
        r'fn (row|fill_row|copy_row)\(',
    ],
    '3 loops by a hand-counted index': [r'^\s*while\b', r'^\s*loop\b'],
    '4 equality, conversion, printing by hand': [
        r'fn (same_sizes|format_of|signed_value|word_of|lowest_value|mark_word|mark_from|kind_word|kind_from)\(',
        r'fn (put_decimal|put_number|put_numbers|put_value|put_values|put_bytes|put_byte|put_words|put_halves)\(',
        r'std::num::wrapping_\w+\(',
    ],
    '5 parameters that travel together': [
        r'text: &mut \[u8\],\s*at: usize',
        r'file: &\[u8\],\s*n: usize',
        r'file1: &\[u8\],\s*file2: &\[u8\],\s*plan: Plan,\s*shape: Shape',
        r'axes: \[u64; INPUTS\],\s*lows: \[u64; INPUTS\],\s*d: usize',
        r'rows: &mut \[u64\],\s*k: usize,[^)]*w: usize',
    ],
    '6 a list with its count beside': [r'list: &(mut )?\[usize\],\s*count: usize', r'pub count: usize', r'pub struct Counts', r'cells: &(mut )?\[u64\],[^)]*count: usize'],
    '7 a switch on which step to run': [r'sum: bool', r'turn: bool', r'if w == LANES', r'if sum \{', r'if shape\.turn'],
}


def main():
    args = [a for a in sys.argv[1:] if a != '-v']
    show = '-v' in sys.argv
    root = args[0] if args else '.'
    for point, patterns in POINTS.items():
        places = []
        for path in sorted(glob.glob(root + '/crates/*/src/**/*.rt', recursive=True)):
            text = open(path, encoding='utf-8').read()
            for pattern in patterns:
                for m in re.finditer(pattern, text, re.M):
                    line = text.count('\n', 0, m.start() + len(m.group()) - len(m.group().lstrip())) + 1
                    places.append((path[len(root):].lstrip('/'), line, m.group().strip().splitlines()[0]))
        print(f'{point}: {len(places)}')
        if show:
            for place in places:
                print('    %s:%d: %s' % place)
    answers = 0
    for path in glob.glob(root + '/crates/*/proofs/*/Answers.antt'):
        answers += len(re.findall(r'^pub \S+ : goal\.', open(path, encoding='utf-8').read(), re.M))
    print(f'8 answers: {answers}')


main()
