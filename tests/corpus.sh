#!/usr/bin/env bash
# The built program prints, for every case file of the corpus and of the examples, exactly what stands beside it; and it
# takes hostile input, endless input among it, without a crash and with status 0.
set -euo pipefail
cd "$(dirname "$0")/.."
./run - < /dev/null > /dev/null
program=crates/divide_file/out/divide_file
count=0
for input in tests/corpus/*.in examples/*.case; do
  case $input in
    *.in) expected=${input%.in}.out ;;
    *) expected=${input%.case}.out ;;
  esac
  if ! "$program" < "$input" | cmp - "$expected"; then
    echo "corpus: $input prints something else than $expected" >&2
    exit 1
  fi
  count=$((count + 1))
done
echo "corpus: $count files print what stands beside them"

# What a stream of bytes must print: a name, the expected text, and the command that writes the stream.
expect() {
  local printed
  printed=$("$program" < <(bash -c "$3" 2> /dev/null) | tr '\n' ' ')
  if [ "$printed" != "$2" ]; then
    echo "corpus: $1 prints '$printed', not '$2'" >&2
    exit 1
  fi
}
expect 'no byte' '' ':'
expect 'a lone line end' 'refused,1,17 ' "printf '\n'"
expect '32,768 bytes of #' 'refused,1,16 ' "head -c 32768 /dev/zero | tr '\0' '#'"
expect '32,769 bytes of #' 'refused,0,21 ' "head -c 32769 /dev/zero | tr '\0' '#'"
expect 'endless input' 'refused,0,21 ' 'yes draw'
expect '80 NUL bytes' 'refused,1,17 ' 'head -c 80 /dev/zero'
expect '81 NUL bytes' 'refused,1,16 ' 'head -c 81 /dev/zero'
expect 'carriage returns' 'refused,1,17 refused,2,18 refused,3,7 refused,4,19 ' "printf 'draw\r\nfund,5\r\npress,t\r\ndivide,equal\r\n'"
expect 'only commas' 'refused,1,17 ' "printf ',,,'"
expect 'a sheet left out, with no last line end' 'ok total,0 sheet,0,0 returned ' "printf 'fund,0\ndivide,talmud\ndraw'"
lines=$(head -c 32768 /dev/zero | tr '\0' '\n' | "$program" | wc -l)
if [ "$lines" != 32768 ]; then
  echo "corpus: 32,768 line ends print $lines lines" >&2
  exit 1
fi
for seed in 1 2 3 4 5 6 7 8; do
  python3 -c "import random, sys; random.seed($seed); sys.stdout.buffer.write(bytes(random.choice(b'dtmsr,\n#0123456789claimfundpress\0\xff') for _ in range(20000)))" | "$program" > /dev/null
done
echo "corpus: hostile input is taken line by line"
