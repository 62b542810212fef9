#!/usr/bin/env bash
# Counts the places in src/ that docs/DESIGN-PASS.md speaks of, one line for each kind of place. With -v it lists them.
# Usage: tools/places.sh [-v] [CRATE..]
set -euo pipefail
cd "$(dirname "$0")/.."
verbose=no
if [ "${1:-}" = "-v" ]; then verbose=yes; shift; fi
folders=()
if [ $# -gt 0 ]; then for name in "$@"; do folders+=("crates/$name/src"); done; else folders=(crates/*/src); fi

count() { # POINT WHAT REGEX
  local hits
  hits=$(grep -rnE --include='*.rt' "$3" "${folders[@]}" || true)
  local n=0
  if [ -n "$hits" ]; then n=$(printf '%s\n' "$hits" | wc -l); fi
  printf '%s  %3d  %s\n' "$1" "$n" "$2"
  if [ $verbose = yes ] && [ -n "$hits" ]; then printf '%s\n' "$hits" | sed 's/^/        /'; fi
}

count 1 'a refusal as an Option'                        'Option<(Case|Sheet|Line|Rule)Refusal>'
count 1 'a refusal turned into an Err or outcome by hand' '(Some|Err)\((refusal|error|reason)\) => (Err|Outcome::Refused|match)'
count 1 'a number matched to a refusal by hand'         'Refusal::[A-Za-z]+ => [0-9]+,'
count 1 'a flag beside a value'                         '\((u32|u64|usize), bool\)|Result<bool, '
count 1 'an own case for "none"'                        '^ +(Unordered|Absent),$'
count 2 'the same text in two crates (is_class, drawn, give_back, less_awards and pay_the_rest)' 'fn (is_class|drawn|give_back|less_awards|pay_the_rest)\('
count 2 'a list made of a list, place by place'         'fn (cut_claims|rights_of|claims_of|class_list|copied|write_halves)\('
count 2 'two that differ in a case or a type'           'fn (inner|outer|put_award|put_posting|put_awards|put_postings)[(<]|struct (Division|Postings) '
count 2 'an enum of the four rules'                     'enum (BaseRule|RuleName)'
count 3 'a loop whose index is not used'                'for \(_[a-z]+, '
count 3 'a loop that indexes a second list'             'for \((i|place), '
count 3 'a while loop'                                  '^ +while '
count 4 'an equality by hand'                           'self\.[a-z]+ == other\.'
count 4 'a byte test or text test by hand'              'fn (same|is_digit|same_bytes)\(|if same\('
count 4 'a conversion by hand'                          'fn (read_letter|read_rule|reverse)\('
count 4 'a refusal printed through its number'          'let number = refusal\.number\(\);'
count 5 'clause: at most 64'                            'requires.*(length [a-z.]+ ≤ most_claims|≤ 65 )'
count 5 'clause: sound, sum, classed'                   'requires (sound|sum|classed) '
count 5 'clause: what the buffer begins with'           'ensures text .*Begins '
count 5 'clause: room in the buffer'                    'requires (room )?\{ (at|least_buffer|length word)'
count 6 'a buffer with its length beside'               '\[[a-zA-Z_0-9]+; (MOST_CLAIMS|MOST_POSTINGS|LEAST_BUFFER|6)\]'
count 6 'a count field'                                 '^ +(pub\(crate\) )?count: usize,$'
count 7 'an arm that only picks the rule'               '=> (apply\(letters|case\.divide\()'
