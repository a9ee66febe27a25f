#!/bin/sh
# Makes a release and installs each part of it where nothing else is: the archive in an empty folder, the package by
# `dpkg-deb -x`, the wheel in a new environment of Python, the crate with a new CARGO_HOME. There, with no toolchain of Rattle
# on the PATH, the programs run examples, a program of twelve lines in C, Rust and Python is built and run, and manual pages
# and completions are looked at. What can't be tried, since a tool isn't there, is named.
# usage: tests/gate/release.sh [FOLDER]: that of a release which is made already
top=$(CDPATH='' cd -- "$(dirname -- "$0")/../.." && pwd) || exit 1
room=$(mktemp -d) || exit 1
trap 'rm -rf "$room"' EXIT
version=$(cat "$top/VERSION") || exit 1
folder=${1:-$room/release}
wanted='ben gave up after 100 ms
ben has the lock'
tests=0 failed=0 left_out=0

leave_out() {
  left_out=$((left_out + 1))
  echo "tests/gate/release.sh: not run: $1"
}

# Compares two texts.
expect() {
  tests=$((tests + 1))
  if [ "$2" != "$3" ]; then
    failed=$((failed + 1))
    printf 'tests/gate/release.sh: %s: it is\n%s\nand should be\n%s\n' "$1" "$3" "$2"
  fi
}

# What a command prints on both outputs, if it ends with another status than 0 with that behind it.
said() {
  "$@" 2>&1 || echo "status $?"
}

has() { command -v "$1" >/dev/null; }

# Runs a command with nothing of the environment but a path of the system's tools, of Python and of Rust.
alone() {
  (cd "$room/empty" && env -i HOME="$room/home" PATH="$path" CARGO_HOME="$room/cargo" CARGO_NET_OFFLINE=true \
    RUSTUP_HOME="${RUSTUP_HOME:-$HOME/.rustup}" ${RUSTUP_TOOLCHAIN:+"RUSTUP_TOOLCHAIN=$RUSTUP_TOOLCHAIN"} "$@")
}

# The programs at the folder $1, with the examples of the folder $2.
try_programs() {
  for program in lockrun lockwaits locklive locknest; do
    expect "$label: $program --version" "$program $version" "$(said alone "$1/$program" --version)"
    expect "$label: $program --help names ./" 0 "$(said alone "$1/$program" --help | grep -c '\./')"
  done
  expect "$label: sim" "$(cat "$2/upgrade.journal")" "$(said alone "$1/lockrun" sim first "$2/upgrade.script")"
  expect "$label: check" "$(sed -n 's/^end /ok /p' "$2/upgrade.journal")" \
    "$(said alone "$1/lockrun" check "$2/upgrade.script" "$2/upgrade.journal")"
  expect "$label: lockwaits why" "$(cat "$2/ring-of-three.why")" \
    "$(said alone "$1/lockwaits" why "$2/ring-of-three.script" "$2/ring-of-three.journal")"
  expect "$label: locknest" "$(cat "$2/nested.answers")" "$(said alone "$1/locknest" "$2/nested.lines")"
  said alone "$1/locklive" "$2/readers-and-writer.script" >"$room/live"
  expect "$label: locklive" "$(sed -n 's/^end /ok /p' "$room/live")" \
    "$(said alone "$1/lockrun" check "$2/readers-and-writer.script" "$room/live")"
  expect "$label: seeds" '0, done 2' "$(said alone "$1/lockrun" seeds 1 2 "$2/upgrade.script" | grep done | tr -s ' ')"
  expect "$label: a word that is none" 'lockrun: "walk" is none' \
    "$(said alone "$1/lockrun" walk | grep -o '^lockrun: "walk" is none')"
}

# What the programs call, and the tools, in the folder $1, with the examples of the folder $2.
try_tools() {
  expect "$label: a fault is explained" '  set 9s
      ^^' "$(printf 'nodes 1\nset 9s\n' | said alone "$1/explain" 2 6 | head -n 2)"
  [ -n "$python" ] || { leave_out "the tools of $label: python3 is not there"; return; }
  for tool in journal-picture journal-state journal-summary journal-trace; do
    said alone "$1/$tool" "$2/upgrade.script" "$2/upgrade.journal" >"$room/printed"
    expect "$label: $tool" '' "$(grep '^status ' "$room/printed")"
  done
  expect "$label: show" "$("$top/lockrun" show "$2/deadlock.journal")" "$(said alone "$1/../lockrun" show "$2/deadlock.journal")"
  expect "$label: nest-waits" "$(cat "$2/nested-ring.waits")" \
    "$(said alone "$1/nest-waits" "$2/nested-ring.lines" "$2/nested-ring.answers")"
}

# Builds a program with the compiler and the flags that are named, and runs it with the libraries of the folder $2.
try_build() {
  expect "$label: $1 is built" '' "$(shift 2 && said alone "$@" -Wall -Wextra -Werror -o "$room/first")"
  expect "$label: $1" "$wanted" "$(said alone env LD_LIBRARY_PATH="$2" "$room/first")"
  rm -f "$room/first"
}

# The program in C over the library in the tree $1, in its folder $2.
try_library() {
  shared=$1/$2/liblockrun.so
  if has objdump && has nm; then
    expect "$label: its name" "liblockrun.so.${version%%.*}" "$(objdump -p "$shared" | sed -n 's/^ *SONAME *//p')"
    expect "$label: its exports" "$("$top/tools/manual" --calls | sort)" \
      "$(nm -D --defined-only "$shared" | sed -n 's/^.* T \(.*\)@@.*/\1/p' | sort)"
  else
    leave_out "what $label exports: objdump and nm are not there"
  fi
  has cc && has pkg-config || { leave_out "a program in C with $label: cc and pkg-config are not there"; return; }
  flags=$(alone env PKG_CONFIG_PATH="$1/$2/pkgconfig" pkg-config --cflags --libs lockrun)
  first=$1/share/doc/lockrun/examples/first.c
  # shellcheck disable=SC2086 # each word of the flags is one
  try_build 'a program in C' "$1/$2" cc -std=gnu11 "$first" $flags
  try_build 'a program in C, with the static library' / cc -std=gnu11 "$first" -I "$1/include" "$1/$2/liblockrun.a"
  if has c++; then
    # shellcheck disable=SC2086
    try_build 'a program in C++' "$1/$2" c++ -x c++ -std=c++11 "$first" -x none $flags
  else
    leave_out "a program in C++ with $label: c++ is not there"
  fi
}

# The manual pages and completions below $1, of which those of zsh are in $2, and where links of the other pages lead.
try_pages() {
  if [ -n "$python" ]; then
    expect "$label: links" '' "$(said "$python" "$top/tools/links" "${1%/*}")"
  else
    leave_out "links of $label: python3 is not there"
  fi
  if has mandoc; then
    expect "$label: manual pages" '' "$(cd "$1/man" && for page in man?/*; do
      case $page in *.gz) gzip -dc "$page" ;; *) cat "$page" ;; esac | mandoc -T lint -W style 2>&1 |
        grep -v 'referenced manual not found: Xr lock' | sed "s|^|$page |"
    done)"
  else
    leave_out "manual pages of $label: mandoc is not there"
  fi
  expect "$label: a page for each call" '' "$(for call in $("$top/tools/manual" --calls) $("$top/tools/manual" --easy-calls); do
    ls "$1/man/man3/$call.3"* >/dev/null 2>&1 || echo "$call"
  done)"
  for page in "$1"/man/man1/*; do
    case $page in *.gz) gzip -dc "$page" >"$room/$(basename "$page" .gz)" ;; *) cp "$page" "$room/" ;; esac
  done
  if has bash; then
    # shellcheck disable=SC2016 # bash opens these
    expect "$label: words for bash" 'sim seeds soak show, first' "$(bash -c '. "$1"; COMP_WORDS=(/x/lockrun s) COMP_CWORD=1
      _lockrun; printf "%s, " "${COMPREPLY[*]}"; COMP_WORDS=(lockrun sim "") COMP_CWORD=2; _lockrun; echo "${COMPREPLY[*]}"' \
      bash "$1/bash-completion/completions/lockrun")"
  else
    leave_out "words for bash of $label: bash is not there"
  fi
  expect "$label: each word is completed and has its line in the manual" '' "$(for program in lockrun lockwaits locklive locknest; do
    sed -n "s/^usage='*//p;s/^also='*//p" "$top/$program" | grep -o '[a-z][a-z]*' | sort -u | while read -r word; do
      grep "[0-9]:$program:.*[' -]$word[' ]" "$1/bash-completion/completions/lockrun" >/dev/null || [ "$word" = "$program" ] ||
        echo "no completion: $program $word"
      grep "^\.\(Nm\|It\) .*[ -]$word\( \|$\)" "$room/$program.1" >/dev/null || [ "$word" = "$program" ] ||
        echo "no line of the manual: $program $word"
    done
  done)"
  if has zsh; then expect "$label: words for zsh" '' "$(said zsh -n "$1/$2/_lockrun")"; else leave_out 'words for zsh'; fi
  if has fish; then
    expect "$label: words for fish" '' "$(cat "$1"/fish/vendor_completions.d/*.fish | said fish -n)"
  else
    leave_out 'words for fish'
  fi
}

try_archive() {
  label='the archive'
  has xz || { leave_out 'the archive: xz is not there'; return; }
  tree=$room/lockrun-$version-linux-x86_64
  xz -dc "$folder/lockrun-$version-linux-x86_64.tar.xz" | tar -C "$room" -xf - || { expect "$label" whole broken; return; }
  expect "$label: its sums" '' "$(cd "$tree" && said sha256sum --quiet -c SHA256SUMS)"
  try_programs "$tree/bin" "$tree/share/doc/lockrun/examples"
  try_tools "$tree/lib/lockrun/tools" "$tree/share/doc/lockrun/examples"
  try_library "$tree" lib
  try_pages "$tree/share" zsh/site-functions
}

try_package() {
  label='the package for Debian'
  has dpkg-deb || { leave_out "$label: dpkg-deb is not there"; return; }
  package=$folder/lockrun_${version}_amd64.deb
  expect "$label: its head" "lockrun $version amd64" \
    "$(dpkg-deb -W --showformat='${Package} ${Version} ${Architecture}' "$package")"
  dpkg-deb -x "$package" "$room/root" || { expect "$label" whole broken; return; }
  try_programs "$room/root/usr/bin" "$room/root/usr/share/doc/lockrun/examples"
  try_library "$room/root/usr" lib/x86_64-linux-gnu
  try_pages "$room/root/usr/share" zsh/vendor-completions
}

try_wheel() {
  label='the wheel'
  [ -n "$python" ] || { leave_out "$label: python3 is not there"; return; }
  alone "$python" -m venv "$room/venv" >/dev/null 2>&1 || { leave_out "$label: python3 makes no environment"; return; }
  expect "$label is installed" '' "$(said alone "$room/venv/bin/pip" install --quiet --no-index --no-cache-dir \
    --disable-pip-version-check "$folder"/lockrun-"$version"-*.whl)"
  expect "$label: its version" "$version" \
    "$(said alone "$room/venv/bin/python" -c 'from importlib.metadata import version; print(version("lockrun"))')"
  expect "$label: a program in Python" "$wanted" "$(said alone "$room/venv/bin/python" "$top/examples/first.py")"
  expect "$label: two nodes apart" 100 "$(said alone "$room/venv/bin/python" "$top/tests/lib/wheel_apart.py")"
  expect "$label: ZeroMQ, if it is there" "ModuleNotFoundError: No module named 'zmq'" \
    "$(said alone "$room/venv/bin/python" -c 'import lockrun_zmq' | grep '^Module')"
  if has mypy; then
    expect "$label: its types" '' "$(said alone mypy --strict --no-error-summary --cache-dir "$room/types" \
      --python-executable "$room/venv/bin/python" -p lockrun -p lockrun_apart -p lockrun_zmq)"
  else
    leave_out "types of $label: mypy is not there"
  fi
}

try_crate() {
  label='the crate'
  has cargo && has cc || { leave_out "$label: cargo and cc are not there"; return; }
  tar -C "$room" -xf "$folder/lockrun-$version.crate" || { expect "$label" whole broken; return; }
  mkdir -p "$room/first/src" && cp "$top/examples/first.rs" "$room/first/src/main.rs" || exit 1
  printf '[package]\nname = "first"\nversion = "0.0.0"\nedition = "2021"\n\n[dependencies]\nlockrun = { path = "%s" }\n' \
    "$room/lockrun-$version" >"$room/first/Cargo.toml"
  for place in "PKG_CONFIG_PATH=$tree/lib/pkgconfig" "LOCKRUN_LIBRARIES=$tree/lib"; do
    has pkg-config || [ "${place%%=*}" != PKG_CONFIG_PATH ] || { leave_out "$label by pkg-config, which is not there"; continue; }
    expect "$label: a program in Rust, by ${place%%=*}" "$wanted" "$(said alone env "$place" \
      cargo run --quiet --manifest-path "$room/first/Cargo.toml" --target-dir "$room/target")"
  done
  expect "$label: its documentation's examples run" 1 "$(said alone env "LOCKRUN_LIBRARIES=$tree/lib" cargo test --doc \
    --manifest-path "$room/lockrun-$version/Cargo.toml" --target-dir "$room/target" | grep -c '^test result: ok')"
  if has cargo-clippy; then
    expect "$label: clippy finds nothing" '' "$(said alone env "LOCKRUN_LIBRARIES=$tree/lib" cargo clippy --quiet --all-targets \
      --manifest-path "$room/lockrun-$version/Cargo.toml" --target-dir "$room/target" -- -D warnings)"
  else
    leave_out "clippy on $label: it is not there"
  fi
  expect "$label: its documentation is made" '' "$(said alone env "LOCKRUN_LIBRARIES=$tree/lib" cargo doc --quiet --no-deps \
    --manifest-path "$room/lockrun-$version/Cargo.toml" --target-dir "$room/target")"
}

mkdir "$room/empty" "$room/home" "$room/cargo" || exit 1
python=$(python3 -c 'import sys; print(sys.executable)' 2>/dev/null)
path=/usr/bin:/bin
if [ -n "$python" ]; then path=${python%/*}:$path; fi
if has cargo; then path=$path:$(dirname "$(command -v cargo)"); fi
expect 'no toolchain of Rattle is on the PATH' 'status 127' "$(said alone sh -c 'rt version' | tail -n 1)"
if [ $# -eq 0 ]; then
  "$top/tools/release" "$version" "$folder" >"$room/said" 2>&1 ||
    { cat "$room/said"; echo 'tests/gate/release.sh: no release is made'; exit 1; }
  grep '^tools/release: no ' "$room/said"
fi
expect 'the sums of the release' '' "$(cd "$folder" && said sha256sum --quiet -c SHA256SUMS)"
expect 'the example in the README of the crate' '' \
  "$(sed -n '/^```rust$/,/^```$/p' "$top/clients/rust/README.md" | sed '1d;$d' | diff - "$top/examples/first.rs")"
try_archive
try_package
try_wheel
try_crate
echo "tests/gate/release.sh: $tests tests, $failed failed, $left_out not run"
[ $failed -eq 0 ]
