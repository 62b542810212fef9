#!/usr/bin/env bash
# The check refuses the two misuses of a sheet: one that is let go, and one that is returned twice. Each is written into
# a small crate over a copy of the proved crates, and the checker's own error is expected by its name.
set -euo pipefail
cd "$(dirname "$0")/.."
copy=$(mktemp -d)
trap 'rm -rf "$copy"' EXIT
for crate in division operators normal_form cases; do
  mkdir -p "$copy/crates"
  cp -r "crates/$crate" "$copy/crates"
  grep "^$crate:" crates.txt >> "$copy/crates.txt"
done
mkdir -p "$copy/crates/misuse/src"
echo "misuse: division operators normal_form cases" >> "$copy/crates.txt"

# The name of the misuse, the error that is expected, and the function.
expect() {
  printf '%s\n' '#![tactic(auto)]' 'use cases::case::Case;' 'use cases::refusal::SheetRefusal;' 'use cases::sheet::Sheet;' "$3" > "$copy/crates/misuse/src/lib.rt"
  if (cd "$copy/crates/misuse" && rt check) > "$copy/log" 2>&1; then
    echo "sheet_misuse: $1 was accepted" >&2
    exit 1
  fi
  if ! grep -q "error\[$2\]" "$copy/log"; then
    echo "sheet_misuse: $1 was refused, but not by $2:" >&2
    tail -n 20 "$copy/log" >&2
    exit 1
  fi
  echo "sheet_misuse: $1 is refused by $2"
}

expect "a sheet that is let go" linear-value-let-go '
pub fn let_go(sheet: Sheet) -> u64 {
    sheet.total_awarded()
}'

expect "a sheet that is returned twice" borrow-e0382 '
pub fn twice(case: &mut Case, sheet: Sheet) -> (Result<(), (Sheet, SheetRefusal)>, Result<(), (Sheet, SheetRefusal)>) {
    let first = case.return_sheet(sheet);
    let second = case.return_sheet(sheet);
    (first, second)
}'

# That the same crate passes where the sheet is handed on shows that the refusals are about the sheet.
printf '%s\n' '#![tactic(auto)]' 'use cases::case::Case;' 'use cases::refusal::SheetRefusal;' 'use cases::sheet::Sheet;' '
pub fn once(case: &mut Case, sheet: Sheet) -> Result<(), (Sheet, SheetRefusal)> {
    case.return_sheet(sheet)
}' > "$copy/crates/misuse/src/lib.rt"
if ! (cd "$copy/crates/misuse" && rt check) > "$copy/log" 2>&1; then
  echo "sheet_misuse: a sheet that is returned once was refused:" >&2
  tail -n 20 "$copy/log" >&2
  exit 1
fi
echo "sheet_misuse: a sheet that is returned once passes"
