#!/usr/bin/env bash
# The stored table of awards under letters is what the plain program prints; rt ci compares the proved program with it.
set -euo pipefail
python3 tests/plain_letters.py | cmp - crates/normal_form_tests/stdout
echo "plain_letters: the stored table is that of the plain way"
