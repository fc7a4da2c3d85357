#!/bin/sh
# test.sh LIBRARY [OUT]: builds the library for WebAssembly and the page (build.sh) and tries both: recorded lines of decode, random calls
# beside the native shared library LIBRARY, rekeys, and the page in Chromium. The last line is `N passed, M failed` and what was skipped;
# without node the status is 77. RT and MODULE as for build.sh.
set -u
library=${1:?"use: test.sh LIBRARY [OUT]"}
here=$(cd "$(dirname "$0")" && pwd)
root=$here/../..
work=$(mktemp -d) || exit 1
trap 'rm -rf "$work"' EXIT
out=${2:-$work/out}
passed=0
failed=0
skipped=

part() { # part NAME COMMAND..
  name=$1
  shift
  if "$@" >"$work/log" 2>&1; then passed=$((passed + 1)) && verdict=; else failed=$((failed + 1)) && verdict="FAILED: "; fi
  echo "web: $name: $verdict$(tail -n 4 "$work/log")"
}

calls() {
  python3 "$here/calls.py" "$library" "$out/interface.json" 12000 >"$work/calls" && node "$here/test_calls.js" "$out" "$work/calls"
}

page() { # the page writes what it found
  python3 "$here/page.py" "$out" "$here/test_page.js" || return 1
  timeout 120 chromium --headless --no-sandbox --disable-gpu --user-data-dir="$work/profile" --virtual-time-budget=20000 \
    --dump-dom "file://$out/desk_test.html" 2>/dev/null | grep -o 'page: .* END' >"$work/said"
  rm -f "$out/desk_test.html"
  cat "$work/said"
  grep -q ', 0 failed ' "$work/said"
}

if ! command -v node >/dev/null 2>&1; then
  echo "node is not installed"
  exit 77
fi
part "build" "$here/build.sh" "$out"
out=$(cd "$out" && pwd) || exit 1
part "recorded lines" node "$here/test_decode.js" "$out" "$root/crates/decode/stdin" "$root/crates/decode/stdout"
part "random calls" calls
part "rekeys" node "$here/test_rekey.js" "$out"
if command -v chromium >/dev/null 2>&1; then part "page" page; else skipped="; skipped: chromium is not installed"; fi
echo "$passed passed, $failed failed$skipped"
[ "$failed" -eq 0 ]
