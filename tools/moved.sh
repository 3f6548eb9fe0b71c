#!/usr/bin/env bash
# SPDX-License-Identifier: MIT OR Apache-2.0
# Shows that what is handed on cannot be used again: of two programs that differ in nothing else, the one that uses a value of
# its own runs, and the one that uses the value again is rejected by the compiler. Neither is proved, and no proof is asked for.
set -u
cd "$(dirname "$0")/.." || exit 2

place=$(mktemp -d) || exit 2
trap 'rm -rf "$place"' EXIT
tar -c --exclude=out crates crates.txt | tar -x -C "$place"
mkdir -p "$place/crates/moved/src"
echo 'moved: post_log post_reader' >>"$place/crates.txt"
program=$place/crates/moved/src/main.rt

# One checked log, read by one reader and by a second of the log that is given.
second_reader() {
  cat >"$program" <<END
use post_log::CheckedLog;
use post_reader::Reader;

fn main() {
    let log = CheckedLog::empty();
    let _first = Reader::new(log);
    let _second = Reader::new($1);
}
END
}

try() {
  (cd "$place/crates/moved" && rt try 2>&1)
}

second_reader 'CheckedLog::empty()'
if ! try >"$place/said"; then
  cat "$place/said"
  echo "error: a reader of a log of its own is refused"
  exit 1
fi
second_reader log
if try >"$place/said" || ! grep -qF 'use of moved value: `log`' "$place/said"; then
  cat "$place/said"
  echo "error: a second reader of one checked log is not rejected by the compiler"
  exit 1
fi
echo "a second reader of one checked log: rejected, as it must be"
