#!/usr/bin/env bash
# SPDX-License-Identifier: MIT OR Apache-2.0
# Counts the places that docs/DESIGN-PASS.md speaks of, by what their text looks like: a line for each point, and with a
# number from 1 to 7 the places themselves.
set -u
cd "$(dirname "$0")/.." || exit 2

pattern() {
  case $1 in
    # kinds, refusals and flags as numbers or beside a value; a result written through an argument
    1) echo 'fn (code|rank|number|place|value|records)\(self|fn from_code\(|into: &mut|\brank: u32|: bool,$|followed: bool|Option<\(u32, u32\)>' ;;
    # what differs from another in a type, a size or a constant
    2) echo 'struct (Instant|Minute) |fn (log_line|present_line|open|list_log|answer|log_words|parse|refused)(<|\()|fn compare\(self|=> (Ok\()?Answer::(NoneBefore|Terminated|Pending)\)?,|place: self\.place \+ 1' ;;
    # loops, and counts and places that go up by hand
    3) echo '^\s*(while|loop|for) |place: self\.place \+ 1|self\.\w+ \+= ' ;;
    # comparing, converting and printing by hand, and values with no derived equality
    4) echo 'fn (from_code|code|from_bits|rank|compare|write_answer|write_hint|refused)(<|\()|\.compare\(|write!\(f|format!\(in heap; "refused|derive\(Clone, Copy\)' ;;
    # facts about a value that many contracts repeat, and arguments that go together
    5) echo '(requires|ensures).*\b(Passes|Lawful|Told|Narrow|PostWithin|PlanWithin) |words: &.*number: u32|words: .*post: u32|words: &\[u32\], polls: &' ;;
    # places and lengths beside lists, and lists taken apart by hand
    6) echo 'place: usize,|fn words_from|while let \[|after @ \.\.' ;;
    # a case that picks the step to run, and an interface of one function
    7) echo 'trait Function|F: Function|impl Function|Case::\w+(\(\w+\))? => ' ;;
    *) return 2 ;;
  esac
}

places() {
  local look
  look=$(pattern "$1") || return 2
  grep -rnE --include='*.rt' -- "$look" crates/*/src
}

if [ $# -gt 0 ]; then
  places "$1"
  exit
fi
for point in 1 2 3 4 5 6 7; do
  echo "$point: $(places "$point" | wc -l)"
done
echo "8: $(find crates/*/proofs -name Answers.antt | wc -l) files of answers, $(find crates/*/proofs -name Invariants.antt | wc -l) of invariants, $(find crates/*/proofs -maxdepth 1 -name '*.antt' ! -name Lib.antt | wc -l) of lemmas, $(find crates/*/proofs -name '*.antt' -exec cat {} + | wc -l) lines"
