#!/bin/sh
# Tests of the wrappers `lockrun`, `lockwaits`, `locknest` and `locklive`, with programs and a toolchain that are stand-ins:
# each tells what it was given. A terminal is made by `script` (util-linux). Prints what failed, and the number of tests.
here=$(CDPATH='' cd -- "$(dirname -- "$0")/../.." && pwd) || exit 1
room=$(mktemp -d) || exit 1
trap 'rm -rf "$room"' EXIT
top=$room/top
tests=0 failed=0

# A copy of the wrapper with a program that was built, and a second one with none.
make_top() {
  mkdir -p "$1/tools/lib" "$1/crates/lockrun/src" && cp "$here/lockrun" "$here/lockwaits" "$here/locknest" "$here/locklive" "$here/VERSION" "$1/" &&
    cp "$here/tools/wrapper" "$here/tools/sources" "$here/tools/explain" "$1/tools/" && cp "$here"/tools/lib/*.awk "$1/tools/lib/" &&
    printf 'lockrun:\n' >"$1/crates.txt" && : >"$1/crates/lockrun/src/main.rt" &&
    cp "$here/build" "$1/" && cp "$here/tools/seeds" "$1/tools/"
}

# The stand-in for the program: prints its words and its input. The first line of the input may ask for an answer.
program='#!/bin/sh
printf "<%s>" "$@"; echo
case "$1:$2:$3:$4:$5:$6:$7" in
  make:20:* | make:65:* | make:*:65:* | make:*:257:* | make:*:version:[04] | make:2:0:* | make:2:33:* | *:4097:* | *:99999999999999999999:* | *:18446744073709551616:*)
    echo "lockrun: usage: run | sim first | sim SEED | check | make NODES CLIENTS COMMANDS SEED | soak SEED | order" >&2
    exit 1 ;;
  make:*) exit 0 ;;
esac
cat >"$0.input" || { echo "lockrun: read fault" >&2; exit 4; }
cat "$0.input"
case $(head -n 1 "$0.input") in
  "# refuse "*) set -- $(head -n 1 "$0.input"); echo "lockrun: line $3: S$4" >&2; exit 2 ;;
  "# stuck") exit 3 ;;
  "# for ever") echo $$ >"$0.pid"; while :; do sleep 0.1; done ;;
  "# by seed") case $2 in *3) exit 3 ;; *5) exit 7 ;; 42) echo "lockrun: no memory" >&2; exit 6 ;; esac ;;
esac
exit 0'

# The stand-in for the toolchain: an empty input has a fault. It says more than the program, and its own status may be
# another one than the program's; the first line of the input may ask for that.
toolchain='#!/bin/sh
if [ "$2" = --cases ]; then
  for words in "$3"/*.args; do
    case=${words%.args}
    cat "$case" >/dev/null && case $(tail -n 1 "$words") in *5) status=7 ;; *8) status=6 ;; *) status=3 ;; esac
    echo "case=${case##*/} run=ended status=$status runners=1 races=unchecked proved=no" >&2
  done
  exit 0
fi
shift 2
[ -d /dev/stdin ] && exit 99
printf "<%s>" "$@"; echo
echo "checked: ended status=2" >&2
echo "races: not looked for, since a kit has no ThreadSanitizer" >&2
case "$1" in make) echo "run=ended status=0" >&2; exit 0 ;; esac
input=$(cat)
case $input in
  "") echo "lockrun: line 1: S5" >&2; echo "run=ended status=2" >&2; exit 2 ;;
  "# no answer") echo "interpreter: no-answer: it took too long" >&2; exit 6 ;;
  "# stuck") echo "run=ended status=3" >&2; exit 1 ;;
esac
echo "run=ended status=0" >&2'

build() {
  mkdir -p "$1/crates/lockrun/out" && printf '%s\n' "$program" >"$1/crates/lockrun/out/lockrun" &&
    chmod +x "$1/crates/lockrun/out/lockrun" && "$1/tools/sources" lockrun >"$1/crates/lockrun/out/sources"
}

# Compares two texts.
expect() {
  tests=$((tests + 1))
  if [ "$2" != "$3" ]; then
    failed=$((failed + 1))
    printf 'tests/gate/wrapper.sh: %s: it is\n%s\nand should be\n%s\n' "$1" "$3" "$2"
  fi
}

# What a command prints on both outputs, with its status behind it.
said() {
  "$@" 2>&1
  echo "status $?"
}

# What a line of commands prints where both outputs are a terminal.
on_terminal() { script -qec "$1" /dev/null </dev/null 2>/dev/null | tr -d '\r'; }

make_top "$top" && build "$top" && make_top "$room/bare" || exit 1
printf '%s\n' "$toolchain" >"$room/rt" && chmod +x "$room/rt"
mkdir "$room/with-rt" && mv "$room/rt" "$room/with-rt/rt"
with_rt=$room/with-rt:$PATH
# A path with all but the toolchain.
mkdir "$room/no-rt"
for tool in sh cat grep sed awk tr mktemp rm dirname readlink head cut tail wc; do
  ln -s "$(command -v $tool)" "$room/no-rt/$tool"
done

# Help and version; words that can be no command are answered at once, and all others go to the program as they are.
for word in --help -h help; do
  expect "$word has status 0" 'status 0' "$(said "$top/lockrun" $word | tail -n 1)"
done
expect '--help names the limits' 2 "$("$top/lockrun" --help | grep -c -e '64 clients on up to 16 nodes' -e '256 clients on up to 64')"
for word in 'sim first' 'sim SEED' 'seeds FROM TO' run check 'make NODES CLIENTS COMMANDS SEED' \
  'make NODES CLIENTS COMMANDS SEED version VERSION' 'soak SEED' order; do
  expect "--help names $word" 1 "$("$top/lockrun" --help | grep -c "^  ./lockrun $word  ")"
done
expect '--version' "lockrun $(cat "$here/VERSION")
status 0" "$(said "$top/lockrun" --version)"
usage='lockrun: usage: run | sim first | sim SEED | check | make NODES CLIENTS COMMANDS SEED | soak SEED | order
lockrun: and also: make NODES CLIENTS COMMANDS SEED version VERSION | seeds FROM TO | show [VIEW] JOURNAL | join PART.. | --help | --version'
no_command() {
  why=$1
  shift
  expect "no command: $*" "$usage${why:+
lockrun: $why}
status 1" "$(PATH=$room/no-rt && said "$room/bare/lockrun" "$@" </dev/null)"
}
long=$(printf '%070d' 7)
no_command ''
no_command '"" is none of run, sim, check, make, soak, order, seeds, show and join' ''
no_command '"simulate" is none of run, sim, check, make, soak, order, seeds, show and join' simulate first
no_command '"r?n" is none of run, sim, check, make, soak, order, seeds, show and join' "$(printf 'r\377n')"
no_command 'sim has a seed behind it: first, or 1 to 20 digits' sim
no_command '"two words" is no seed: first, or 1 to 20 digits, and less than 2^64' sim 'two words'
no_command '"--help" is no file that can be read, and nothing else may stand there' sim first --help
no_command '"7x" is no seed: first, or 1 to 20 digits, and less than 2^64' sim 7x
no_command "\"$(echo "$long" | cut -c 1-56) ..\" is no seed: first, or 1 to 20 digits, and less than 2^64" sim "$long" more
no_command 'soak has a seed behind it: 1 to 20 digits' soak
no_command '"-7" is no seed: 1 to 20 digits, and less than 2^64' soak -7
no_command '"now" is one word too many' soak 7 now
no_command 'make has four numbers behind it: NODES CLIENTS COMMANDS SEED' make 2 3 8
no_command '"eight" is no number of commands: 0 to 4096' make 2 3 eight 7
no_command '"8" is one word too many: behind the seed there may be version VERSION' make 2 3 4 7 8
no_command 'version has a number behind it: 1, 2 or 3' make 2 3 4 7 version
no_command '"versions" is one word too many: behind the seed there may be version VERSION' make 2 3 4 7 versions 3
no_command '"three" is no version: 1, 2 or 3' make 2 3 4 7 version three
no_command '"more" is one word too many' make 2 3 4 7 version 3 more
no_command '"eight" is no number of commands: 0 to 4096' make 2 3 eight 7 version 3
no_command '"now" is no file that can be read, and nothing else may stand there' run now
no_command "\"$room\" is no file that can be read, and nothing else may stand there" order "$room"
no_command '"/dev/null" is one word too many' order /etc/passwd /dev/null
no_seeds() {
  expect "no seeds: $2" "lockrun: usage: seeds FROM TO
lockrun: $1
status 1" "$(PATH=$room/no-rt && said "$room/bare/lockrun" seeds $2 </dev/null)"
}
for words in '' 1 '1 2 3'; do no_seeds 'seeds has two numbers behind it, the first seed and the last one, and maybe a file' "$words"; done
no_seeds '"x" is no number' '1 x'
no_seeds '"-2" is no number' '-2 x'
# Of words that may be a command the program says whether they are one, and the wrapper which word is wrong.
refused_words() {
  why=$1
  shift
  expect "no command for the program: $*" "$usage
lockrun: $why
status 1" "$(said "$top/lockrun" "$@" </dev/null | sed '/^</d')"
}
refused_words '"20" is no number of nodes: 1 to 16, and to 64 with version 2 behind the seed' make 20 3 12 5
refused_words '"65" is no number of nodes: 1 to 16' make 65 3 12 5
refused_words '"65" is no number of nodes: 1 to 64' make 65 3 12 5 version 2
refused_words '"65" is no number of clients: 1 to 64, and to 256 with version 2 behind the seed' make 16 65 12 5 version 1
refused_words '"257" is no number of clients: 1 to 256, and to 1024 with version 3 behind the seed' make 64 257 12 5 version 2
refused_words '"4" is no version: 1, 2 or 3' make 2 3 12 5 version 4
refused_words '"0" is no version: 1, 2 or 3' make 2 3 12 5 version 0
refused_words '"0" is no number of clients: 1 to 64' make 2 0 12 5
refused_words '"33" clients are more than 16 on a node' make 2 33 12 5
refused_words '"4097" is no number of commands: 0 to 4096' make 2 32 4097 5
refused_words '"18446744073709551616" is no seed: 1 to 20 digits, and less than 2^64' make 2 32 4096 18446744073709551616
refused_words '"99999999999999999999" is no seed: 1 to 20 digits, and less than 2^64' soak 99999999999999999999
refused_words '"99999999999999999999" is no seed: first, or 1 to 20 digits, and less than 2^64' sim 99999999999999999999
for words in 'sim 18446744073709551615' 'make 17 1 1 1' 'make 17 1 1 1 version 03' 'soak 007' 'check' 'order'; do
  # shellcheck disable=SC2086 # a call may be more words
  expect "a command, or the program says why not: $words" "$(printf '<%s>' $words)
status 0" "$(said "$top/lockrun" $words </dev/null)"
done

# The input reaches the program byte by byte, with a terminal and without.
awk 'BEGIN { for (k = 0; k < 256; k++) printf "%c", k; printf "# no line end\r" }' >"$room/bytes"
"$top/lockrun" sim first <"$room/bytes" >/dev/null
expect 'bytes of the input' '' "$(cmp "$room/bytes" "$top/crates/lockrun/out/lockrun.input" 2>&1)"
expect 'the status' '<sim><first>
# stuck
status 3' "$(echo '# stuck' | said "$top/lockrun" sim first)"

# A program that was built starts with no other tool than the one that reads the list of its sources.
mkdir "$room/only-cat" && ln -s "$(command -v cat)" "$room/only-cat/cat"
expect 'no search before the program' '<make><1><1><1><1>
status 0' "$(PATH=$room/only-cat && said "$top/lockrun" make 1 1 1 1 </dev/null)"

# Many seeds: how many runs ended how, and the first that got stuck.
expect 'seeds, all done' 'status         runs
0, done           2
3, stuck          0
7, cut            0
status 0' "$(echo x | said "$top/lockrun" seeds 008 9)"
expect 'seeds, some stuck' 'status         runs
0, done          18
3, stuck          3   first: 3
7, cut            2   first: 5

To see the first that gets stuck:
  ./lockrun sim 3 < SCRIPT > stuck.journal
  ./lockrun show SCRIPT stuck.journal
  ./lockrun show picture SCRIPT stuck.journal --waits > stuck.svg
status 3' "$(echo '# by seed' | said "$top/lockrun" seeds 1 23)"
expect 'seeds, one cut' 'status 7' "$(echo '# by seed' | said "$top/lockrun" seeds 4 6 | tail -n 1)"
expect 'seeds, another end' 'lockrun: seed 42
lockrun: no memory
status 6' "$(echo '# by seed' | said "$top/lockrun" seeds 40 99)"
expect 'seeds of a script with a fault' 'lockrun: line 1: S3
lockrun: "# refuse 1 3", at "refuse": not a command: lock, try, unlock, change or drop
status 2' "$(echo '# refuse 1 3' | said "$top/lockrun" seeds 1 99)"
expect 'no seed' 'lockrun: there is no seed from 2 to 1
status 1' "$(said "$top/lockrun" seeds 2 1 </dev/null)"
expect 'too long a seed' 'lockrun: seeds of at most 18 digits
status 1' "$(said "$top/lockrun" seeds 1 9999999999999999999 </dev/null)"
expect 'seeds of a folder' 'lockrun: read fault
status 4' "$(said "$top/lockrun" seeds 1 2 </)"
expect 'seeds on a full disk' 'lockrun: write fault
status 5' "$(echo x | said sh -c "'$top/lockrun' seeds 1 2 >/dev/full")"
expect 'seeds, unproved' 'lockrun: not proved: no program is built from these sources; ./build lockrun proves them and makes it
lockrun: not proved: the sources are compiled for this run, in a minute or more
lockrun: so the further seeds take as long together as the first
0, done           0
3, stuck          8   first: 1
7, cut            1   first: 5
status 3' "$(echo '# stuck' | (PATH=$with_rt && said "$room/bare/lockrun" seeds 1 9) | grep -e '^lockrun' -e '^[037],' -e '^status [0-9]')"
expect 'seeds, no toolchain' 'status 127' "$( (PATH=$room/no-rt && said "$room/bare/lockrun" seeds 1 2 </dev/null) | tail -n 1)"
yes | "$top/lockrun" seeds 1 1 >/dev/null
expect 'seeds of an endless input' 1048577 "$(wc -c <"$top/crates/lockrun/out/lockrun.input")"
expect 'seeds, no folder can be made' 'lockrun: no folder can be made for what is kept while it runs
status 125' "$(echo x | (TMPDIR=$room/none && export TMPDIR && said "$top/lockrun" seeds 1 2))"

# A run is shown by the tool of the view, with its script before it, above it in one file, or beside it by its name.
if command -v python3 >/dev/null; then
  for view in state counts picture trace; do
    case $view in counts) tool=journal-summary ;; *) tool=journal-$view ;; esac
    "$here/tools/$tool" "$here/examples/deadlock.script" "$here/examples/deadlock.journal" >"$room/wanted"
    "$here/lockrun" show $view "$here/examples/deadlock.journal" >"$room/seen" 2>&1
    expect "show $view" '' "$(cmp "$room/wanted" "$room/seen" 2>&1)"
  done
  expect 'show a state' "$("$here/tools/journal-state" "$here/examples/deadlock.script" "$here/examples/deadlock.journal" 3)" \
    "$("$here/lockrun" show "$here/examples/deadlock.script" "$here/examples/deadlock.journal" 3 2>&1)"
  { cat "$here/examples/deadlock.script"; printf ' journal\r\n'; cat "$here/examples/deadlock.journal"; } >"$room/both"
  expect 'show one file' "$("$here/lockrun" show "$here/examples/deadlock.journal")" "$("$here/lockrun" show state "$room/both" 2>&1)"
fi
expect 'show nothing' 'lockrun: usage: show [state | counts | picture | trace | waits] [SCRIPT] JOURNAL
status 1' "$(said "$here/lockrun" show)"
expect 'show no file' 'lockrun: usage: show [state | counts | picture | trace | waits] [SCRIPT] JOURNAL
lockrun: "pictures" is no view, and no file that can be read
status 1' "$(said "$here/lockrun" show pictures "$here/examples/deadlock.journal")"
echo 'end 0' >"$room/lone.journal"
expect 'show a journal alone' "lockrun: $room/lone.journal has no line \`journal\` behind its script, and $room/lone.script is no file: name the script before it
status 1" "$(said "$here/lockrun" show "$room/lone.journal")"

# The wrapper may be called by links, from anywhere, and with CDPATH.
ln -s "$top/lockrun" "$room/link" && ln -s link "$room/second" && ln -s "$top" "$room/folder"
mkdir -p "$room/cd/top" "$room/cd/crates"
for call in "$room/link" "$room/second" "$room/folder/lockrun" ./lockrun "sh lockrun" ../top/lockrun; do
  # shellcheck disable=SC2086 # a call may be two words
  expect "called as $call" '<run>
status 0' "$(cd "$top" && CDPATH="$room/cd:$top" && export CDPATH && said $call run </dev/null)"
done
mkdir -p "$room/cd/bare/crates/lockrun"
expect 'called with CDPATH, unproved' '<run>' \
  "$(cd "$room" && PATH=$with_rt && CDPATH=$room/cd && export CDPATH && echo x | sh bare/lockrun run 2>/dev/null)"
expect 'called by the path' '<run>
status 0' "$(PATH=$top:$PATH && said lockrun run </dev/null)"

# A folder as standard input is a read fault, whichever way the program runs.
expect 'a folder as input' 'status 4' "$(said "$top/lockrun" run 2>/dev/null </ | tail -n 1)"
expect 'a folder as input, unproved' 'lockrun: not proved: no program is built from these sources; ./build lockrun proves them and makes it
lockrun: not proved: the sources are compiled for this run, in a minute or more
lockrun: read fault
status 4' "$(PATH=$with_rt && said "$room/bare/lockrun" run </ | grep -v '^<')"
expect 'a folder as input that nothing reads, unproved' '<make><1><1><1><1>
status 0' "$(PATH=$with_rt && said "$room/bare/lockrun" make 1 1 1 1 </ | grep -v '^lockrun: not')"
expect 'no input at all, unproved' 'lockrun: read fault
status 4' "$(PATH=$with_rt && said "$room/bare/lockrun" run <&- | grep -v -e '^<' -e '^lockrun: not')"

# What the trial runner says of itself is left out, and its own status isn't taken for the program's.
unproved() { PATH=$with_rt && export PATH && said "$room/bare/lockrun" "$@" | grep -v '^lockrun: not'; }
expect 'the status, unproved' '<sim><first>
status 3' "$(echo '# stuck' | unproved sim first)"
expect 'no answer, unproved' 'lockrun: the trial runner gave no answer; ./build lockrun makes the program
status 125' "$(echo '# no answer' | unproved sim first)"
expect 'a full disk, unproved' 'lockrun: write fault
status 5' "$(echo x | (PATH=$with_rt && said sh -c "'$room/bare/lockrun' run >/dev/full") | grep -v '^lockrun: not')"
expect 'no output at all, unproved' 'lockrun: write fault
status 5' "$(echo x | (PATH=$with_rt && said sh -c "'$room/bare/lockrun' run >&-") | grep -v '^lockrun: not')"
expect 'no folder can be made' 'lockrun: no folder can be made for what is kept while it runs
status 125' "$(echo x | (TMPDIR=$room/none && export TMPDIR && unproved run))"

# Without a program that was built from the sources as they are, the toolchain runs them.
expect 'unproved' 'lockrun: not proved: no program is built from these sources; ./build lockrun proves them and makes it
lockrun: not proved: the sources are compiled for this run, in a minute or more
<sim><first>
status 0' "$(echo x | (PATH=$with_rt && said "$room/bare/lockrun" sim first))"
# The answer of an unproved run is kept, for the same sources, words and input. `rt` isn't asked again.
asked_again() {
  PATH=$with_rt && export PATH
  printf '%s\n' "$2" | said "$room/bare/lockrun" $1 | sed -e '/^lockrun: .*no program is built/d' -e '/^lockrun: the trial/d' \
    -e 's/^lockrun: .*are compiled.*/compiled/' -e 's/^lockrun: .*of an earlier run.*/kept/' | tr '\n' ' '
}
expect 'unproved, once more' 'kept <sim><first> status 0 ' "$(asked_again 'sim first' x)"
expect 'unproved, other words' 'compiled <sim><7> status 0 ' "$(asked_again 'sim 7' x)"
expect 'unproved, another input' 'compiled <sim><first> status 0 ' "$(asked_again 'sim first' y)"
expect 'unproved, the status once more' 'kept <sim><first> status 3 ' "$(asked_again 'sim first' '# stuck')"
expect 'unproved, no answer is kept of none' 'compiled status 125 ' "$(asked_again 'sim first' '# no answer')"
expect 'unproved, an input without a line end' 'compiled <sim><first> status 0 ' "$(printf '' | asked_again 'sim first' "x ")"
echo '// another source' >>"$room/bare/crates/lockrun/src/main.rt"
expect 'unproved, other sources' 'compiled <sim><first> status 0 ' "$(asked_again 'sim first' x)"
expect 'unproved, answers of other sources are removed' 1 "$(find "$room/bare/crates/lockrun/out/tried" -name status | wc -l)"
expect 'no toolchain' "lockrun: no program is built, and the toolchain's program rt isn't on the PATH: README.md says what it is, under \"What it needs\"
status 127" "$(PATH=$room/no-rt && said "$room/bare/lockrun" sim first </dev/null)"
is_stale() {
  expect "$1" 'lockrun: not proved: no program is built from these sources; ./build lockrun proves them and makes it' \
    "$(PATH=$with_rt && said "$top/lockrun" run <"$room/bytes" 2>&1 | head -n 1)"
  build "$top"
}
sleep 0.02 && touch "$top/crates/lockrun/src/main.rt" && is_stale 'a source was edited'
sleep 0.02 && : >"$top/crates/lockrun/src/more.rt" && is_stale 'a source came'
sleep 0.02 && rm "$top/crates/lockrun/src/more.rt" && is_stale 'a source went'
sleep 0.02 && touch "$top/crates.txt" && is_stale 'crates.txt was edited'
: >"$top/crates/lockrun/out/sources" && is_stale 'the list of sources is empty'
rm "$top/crates/lockrun/out/sources" && is_stale 'the list of sources is gone'
mkdir -p "$top/crates/lockrun/must-fail" && touch "$top/crates/lockrun/must-fail/x.edit"
expect 'what no program is made from' '<run>' "$(said "$top/lockrun" run </dev/null | head -n 1)"

# A file behind the words is the input; a help page that can't be written.
echo '# stuck' >"$room/stuck"
expect 'a file as the input' '<sim><first>
# stuck
status 3' "$(said "$top/lockrun" sim first "$room/stuck")"
expect 'a file as the script of seeds' '3, stuck          2   first: 1' \
  "$(said "$top/lockrun" seeds 1 2 "$room/stuck" | sed -n 3p)"
expect 'a file as the input of no command' 'status 1' "$(said "$top/lockrun" soak 7 "$room/stuck" | tail -n 1)"
expect 'help on a full disk' 'lockrun: write fault
status 5' "$("$top/lockrun" --help 2>&1 >/dev/full; echo "status $?")"
expect 'called by the shell' '<check>' "$(cd "$top" && sh lockrun check "$room/stuck" "$room/stuck" 2>&1 | head -n 1)"

# A signal to the wrapper ends the program too.
pid=$top/crates/lockrun/out/lockrun.pid
echo '# for ever' >"$room/for-ever"
"$top/lockrun" run <"$room/for-ever" >/dev/null 2>&1 &
wrapper=$!
while ! [ -s "$pid" ]; do sleep 0.1; done
kill $wrapper
wait $wrapper
expect 'a signal' 143 $?
tries=0
while [ $tries -lt 100 ] && kill -0 "$(cat "$pid")" 2>/dev/null; do tries=$((tries + 1)) && sleep 0.1; done
expect 'no program is left after a signal' 'gone' "$(kill -0 "$(cat "$pid")" 2>/dev/null || echo gone)"

# The build: how far it is, what it leaves, and what it can't do. Its stand-in for the toolchain has two crates to prove.
made=$room/made
make_top "$made" && mkdir -p "$made/crates/lt_low/src" && printf 'lt_low:\nlockrun: lt_low\n' >"$made/crates.txt"
printf 'run\nnow\n' >"$made/crates/lockrun/args" && : >"$made/crates/lockrun/stdin"
mkdir "$room/with-build" && printf '%s\n' '#!/bin/sh
case $(cat ../lt_low/src/refused 2>/dev/null) in refused) exit 1 ;; esac
case $1 in
  all)
    echo "fn low: proved" >&2
    echo "logic=proved functions=1" >&2
    echo "fn high: proved" >&2
    echo "logic=proved functions=2" >&2
    echo "lt_low: ok"
    echo "lockrun: ok"
    exit ;;
esac
echo "library lt_low: modules loaded=1" >&2
mkdir -p out && printf "#!/bin/sh\necho built\n" >out/lockrun && chmod +x out/lockrun
echo "<$*>"' >"$room/with-build/rt" && chmod +x "$room/with-build/rt"
with_build=$room/with-build:$PATH
expect 'the build' "build: from nothing, all together takes up to half an hour on four processors; what was proved before and didn't change isn't proved again
build: lockrun is made from 2 crates, and each that isn't proved yet is proved first
fn low: proved
logic=proved functions=1
build: lockrun: 1 of 2 crates proved
fn high: proved
logic=proved functions=2
build: lockrun: 2 of 2 crates proved
lt_low: ok
lockrun: ok
library lt_low: modules loaded=1
build: lockrun is proved and linked: $made/crates/lockrun/out/lockrun
status 0" "$(PATH=$with_build && said "$made/build" lockrun)"
expect 'what was built runs' 'built
status 0' "$(cd / && said "$made/lockrun" run </dev/null)"
ln -s "$made/build" "$room/link-to-build"
expect 'the build called by a link' 'status 0' "$(cd / && PATH=$with_build && said "$room/link-to-build" lockrun | tail -n 1)"
expect 'the build of all programs' 1 "$(PATH=$with_build && said "$made/build" | grep -c 'is proved and linked')"
expect 'the programs that there are' 'usage: ./build [PROGRAM..]: proves and links these programs, or all if none is named: lockrun
status 0' "$(PATH=$room/no-rt && said "$made/build" --help)"
expect 'the build of no program' 'build: there is no program lockrum; ./build --help names them
status 1' "$(PATH=$with_build && said "$made/build" lockrum)"
echo refused >"$made/crates/lt_low/src/refused"
expect "a build that isn't proved" "build: lockrun isn't built
status 1" "$(PATH=$with_build && said "$made/build" lockrun | tail -n 2)"
expect 'a build with no toolchain' "build: the toolchain's program rt isn't on the PATH: README.md says what it is, under \"What it needs\"
status 127" "$(PATH=$room/no-rt && said "$made/build" lockrun)"
expect 'a build with no folder to be made' 'build: no folder can be made for what is kept while it runs
status 125' "$(PATH=$with_build && TMPDIR=$room/none && export TMPDIR && said "$made/build" lockrun)"
# A checkout that can't be written is tried as another user, if we are the one who may write everywhere.
as_nobody=
if [ -w / ]; then as_nobody='setpriv --reuid 65534 --regid 65534 --clear-groups'; fi
chmod a+rx "$room" && chmod -R a-w "$made" && chmod -R a+rX "$made" "$room/with-build"
if $as_nobody true 2>/dev/null; then
  expect "a build in a checkout that can't be written" "build: nothing can be written below $made/crates
status 125" "$(PATH=$with_build && said $as_nobody "$made/build" lockrun)"
  expect "a run in a checkout that can't be written" 'built
status 0' "$(rm "$made/crates/lt_low/src/refused" && touch "$made/crates/lockrun/out/sources" && said $as_nobody "$made/lockrun" run </dev/null)"
else
  echo "tests/gate/wrapper.sh: no other user can be had: no checkout that can't be written is tried"
fi

# How a refused script is explained: on a terminal with the line and a caret, elsewhere in one line.
printf '# refuse 5 10\nnodes 1\nset s\nclient a at 0\na lock s reed\n' >"$room/refused"
expect 'refused' 'lockrun: line 5: S10
lockrun: "a lock s reed", at "reed": not a mode: intention_read, read, upgrade, intention_write or write
status 2' "$(said "$top/lockrun" sim 7 <"$room/refused" | tail -n 3)"
printf '# refuse 3 3\n\na lock\r\n' >"$room/short"
expect 'refused at the end of a line' 'lockrun: line 3: S3
lockrun: "a lock", at its end: the form is: CLIENT lock SET MODE
status 2' "$(said "$top/lockrun" run "$room/short" | tail -n 3)"
printf '# refuse 3 5\n\n' >"$room/short"
expect 'refused for a line that is missing' 'lockrun: line 3: S5
lockrun: the script has no line `nodes NUMBER`
status 2' "$(said "$top/lockrun" run "$room/short" | tail -n 3)"
expect 'refused, with no folder to be made' 'lockrun: line 5: S10
status 2' "$( (TMPDIR=$room/none && export TMPDIR && said "$top/lockrun" run "$room/refused") | tail -n 2)"
expect 'an input that can only be written' 'lockrun: read fault
status 4' "$(said "$top/lockrun" run 0>"$room/written")"
on_a_terminal() {
  expect 'refused, on a terminal' 'lockrun: line 5: S10
  a lock s reed
           ^^^^
  not a mode: intention_read, read, upgrade, intention_write or write
status 2' "$(on_terminal "'$top/lockrun' sim 7 <'$room/refused'; echo status \$?" | tail -n 5)"
  expect 'refused, only the output on a terminal' 'status 2' \
    "$(on_terminal "'$top/lockrun' sim 7 <'$room/refused' 2>/dev/null; echo status \$?" | tail -n 1)"
  on_terminal "'$top/lockrun' sim first <'$room/bytes'" >/dev/null
  expect 'bytes of the input, on a terminal' '' "$(cmp "$room/bytes" "$top/crates/lockrun/out/lockrun.input" 2>&1)"
  expect 'seeds of a script with a fault, on a terminal' 'lockrun: line 5: S10
  a lock s reed
           ^^^^
  not a mode: intention_read, read, upgrade, intention_write or write
status 2' "$(on_terminal "'$top/lockrun' seeds 1 9 <'$room/refused'; echo status \$?" | sed 's/^lockrun: seed 1  *//')"
  expect 'the status, on a terminal' '<sim><first>
# stuck
status 3' "$(on_terminal "echo '# stuck' | '$top/lockrun' sim first; echo status \$?")"
  expect 'words that read nothing leave the input, on a terminal' '<make><1><1><1><1>
left' "$(on_terminal "echo left | { '$top/lockrun' make 1 1 1 1; cat; }")"
  expect 'a word that is wrong, on a terminal' 'lockrun: "-7" is no seed: 1 to 20 digits, and less than 2^64
lockrun: ./lockrun --help says more
status 1' "$(on_terminal "'$top/lockrun' soak -7; echo status \$?" | tail -n 3)"
  expect 'no words, on a terminal' 'lockrun: ./lockrun --help says more
status 1' "$(on_terminal "'$top/lockrun'; echo status \$?" | tail -n 2)"
  on_terminal "yes | '$top/lockrun' sim first" >/dev/null
  expect 'an endless input, on a terminal' 1048577 "$(wc -c <"$top/crates/lockrun/out/lockrun.input")"
  expect 'no folder can be made, on a terminal' '<run>
status 0' "$(on_terminal "TMPDIR='$room/none' '$top/lockrun' run; echo status \$?")"
  expect 'no answer, on a terminal, unproved' 'lockrun: the trial runner gave no answer; ./build lockrun makes the program
status 125' "$(on_terminal "echo '# no answer' | PATH='$with_rt' '$room/bare/lockrun' run; echo status \$?" | tail -n 2)"
}
if [ "$(on_terminal 'test -t 2 && echo yes')" = yes ]; then on_a_terminal; else echo "tests/gate/wrapper.sh: no terminal can be made here"; fi

# locknest takes no words, and reads whatever it is given.
nest=$room/nest
make_top "$nest" && mkdir -p "$nest/crates/locknest/out" "$nest/crates/locknest/src" && : >"$nest/crates/locknest/src/main.rt"
expect 'locknest, unproved' 'locknest: not proved: no program is built from these sources; ./build locknest proves them and makes it
locknest: not proved: the sources are compiled for this run, in a minute or more
locknest: read fault
status 4' "$(PATH=$with_rt && said "$nest/locknest" </)"
printf '%s\n' '#!/bin/sh
input=$(cat) || { echo "locknest: read fault" >&2; exit 4; }
case $input in "refuse "*) echo "locknest: line 2" >&2; exit 2 ;; esac
echo "<$input>"' >"$nest/crates/locknest/out/locknest" && chmod +x "$nest/crates/locknest/out/locknest"
printf 'crates.txt\ncrates/locknest/src\ncrates/locknest/src/main.rt\n' >"$nest/crates/locknest/out/sources"
expect 'locknest' '<set s>
status 0' "$(echo 'set s' | said "$nest/locknest")"
expect 'locknest with a word' 'locknest: usage: locknest
locknest: and also: --help | --version
locknest: "run" is no file that can be read, and nothing else may stand there
status 1' "$(said "$nest/locknest" run </dev/null)"
expect 'locknest --version' "locknest $(cat "$here/VERSION")
status 0" "$(said "$nest/locknest" --version)"
expect 'locknest --help names the limits' 1 "$("$nest/locknest" --help | grep -c '8 sets, 256 transactions and 65,535$')"
expect 'locknest called by a link' '<x>
status 0' "$(ln -s "$nest/locknest" "$room/nested" && echo x | said "$room/nested")"
expect 'locknest, refused' 'locknest: line 2
locknest: "t? begin", at "t?": not a name: 1 to 32 letters, digits, _, - and ., a letter first, and not nodes, set, client, journal, version or begin
status 2' "$(printf 'refuse this\nt\001 begin\n' | said "$nest/locknest")"
nest_on_a_terminal() {
  printf 'refuse this\nt\001 begin\n' >"$room/refused"
  expect 'locknest, refused, on a terminal' 'locknest: line 2
  t? begin
  ^^
  not a name: 1 to 32 letters, digits, _, - and ., a letter first, and not nodes, set, client, journal, version or begin
status 2' "$(on_terminal "'$nest/locknest' <'$room/refused'; echo status \$?")"
}
if [ "$(on_terminal 'test -t 2 && echo yes')" = yes ]; then nest_on_a_terminal; fi

# lockwaits takes no words or the word `why`, or the files of a script and its journal behind these, which may lack the
# end of their last lines.
waits=$room/waits
make_top "$waits" && mkdir -p "$waits/crates/lockwaits/out" "$waits/crates/lockwaits/src" &&
  : >"$waits/crates/lockwaits/src/main.rt"
expect 'lockwaits, unproved' 'lockwaits: not proved: no program is built from these sources; ./build lockwaits proves them and makes it
lockwaits: not proved: the sources are compiled for this run, in a minute or more
lockwaits: read fault
status 4' "$(PATH=$with_rt && said "$waits/lockwaits" </)"
printf '%s\n' '#!/bin/sh
input=$(cat) || { echo "lockwaits: read fault" >&2; exit 4; }
case $input in
  "# fault"*) echo "lockwaits: line 5: S10" >&2; exit 2 ;;
  "# bad"*) echo "lockwaits: line 7: journal" >&2; exit 8 ;;
esac
echo "$*<$input>"' >"$waits/crates/lockwaits/out/lockwaits" && chmod +x "$waits/crates/lockwaits/out/lockwaits"
printf 'crates.txt\ncrates/lockwaits/src\ncrates/lockwaits/src/main.rt\n' >"$waits/crates/lockwaits/out/sources"
expect 'lockwaits' '<nodes 1
journal
end 0>
status 0' "$(printf 'nodes 1\njournal\nend 0\n' | said "$waits/lockwaits")"
printf 'nodes 1' >"$room/a script" && printf 'end 0' >"$room/-journal"
expect 'lockwaits with two files' '<nodes 1
journal
end 0>
status 0' "$(cd "$room" && said "$waits/lockwaits" 'a script' -journal)"
expect 'lockwaits why with two files' 'why<nodes 1
journal
end 0>
status 0' "$(cd "$room" && said "$waits/lockwaits" why 'a script' -journal)"
printf 'nodes 1\njournal\nend 0\n' >"$room/why"
expect 'lockwaits why, where a file has that name' 'why<x>
status 0' "$(cd "$room" && echo x | said "$waits/lockwaits" why)"
expect 'lockwaits why with a file' 'why<nodes 1
journal
end 0>
status 0' "$(cd "$room" && said "$waits/lockwaits" why why)"
mkfifo "$room/pipe"
cat "$room/why" >"$room/pipe" &
expect 'lockwaits why with a pipe' 'why<nodes 1
journal
end 0>
status 0' "$(cd "$room" && said "$waits/lockwaits" why pipe)"
cat "$room/a script" >"$room/pipe" &
expect 'lockrun check with a pipe and a device' '<check>
nodes 1
journal
status 0' "$(said "$top/lockrun" check "$room/pipe" /dev/null)"
expect 'lockwaits with a file that is none' "lockwaits: $room/none can't be read
status 125" "$(said "$waits/lockwaits" "$room/a script" "$room/none")"
expect 'lockrun check with two files' '<check>
nodes 1
journal
end 0
status 0' "$(said "$top/lockrun" check "$room/a script" "$room/-journal" | sed 's/^end 0status/end 0\nstatus/')"
expect 'lockwaits with a word' 'lockwaits: usage: lockwaits
lockwaits: and also: why | [why] SCRIPT JOURNAL | --help | --version
lockwaits: "run" is no file that can be read, and nothing else may stand there
status 1' "$(said "$waits/lockwaits" run </dev/null)"
expect 'lockwaits with three words' 'lockwaits: usage: lockwaits
lockwaits: and also: why | [why] SCRIPT JOURNAL | --help | --version
lockwaits: "three" is one word too many
status 1' "$(said "$waits/lockwaits" one two three </dev/null)"
expect 'lockwaits why with a word' 'lockwaits: usage: lockwaits
lockwaits: and also: why | [why] SCRIPT JOURNAL | --help | --version
lockwaits: "not" is no file that can be read, and nothing else may stand there
status 1' "$(said "$waits/lockwaits" why not </dev/null)"
expect 'lockwaits why with four words' 'lockwaits: usage: lockwaits
lockwaits: and also: why | [why] SCRIPT JOURNAL | --help | --version
lockwaits: "three" is one word too many
status 1' "$(said "$waits/lockwaits" why one two three </dev/null)"
expect 'lockwaits --version' "lockwaits $(cat "$here/VERSION")
status 0" "$(said "$waits/lockwaits" --version)"
expect 'lockwaits --help names the two files' 1 "$("$waits/lockwaits" --help | grep -c '^  ./lockwaits SCRIPT JOURNAL  ')"
expect 'lockwaits called by a link' '<x>
status 0' "$(ln -s "$waits/lockwaits" "$room/waiting" && echo x | said "$room/waiting")"
cp "$here"/tools/lib/*.py "$waits/tools/lib/" && cp "$here/tools/journal-summary" "$waits/tools/"
printf '# bad\nnodes 1\nset s\n' >"$room/bad"
expect 'lockwaits, an input without a journal' 'lockwaits: line 7: journal
lockwaits: line 7 is missing: behind its script the input has the line journal, and then a journal
status 8' "$(said "$waits/lockwaits" <"$room/bad")"
printf '# bad\nnodes 1\nset s\n# journal\n journal\r\nowner s 0 0\nmo\r\001ve\r\n' >"$room/bad"
expect 'lockwaits, a bad journal' 'lockwaits: line 7: journal
lockwaits: "mo??ve": line 2 of the journal: no run that ends at rest goes on so; due there is end 0
status 8' "$(said "$waits/lockwaits" <"$room/bad")"
expect 'lockwaits, a bad journal, with no Python' 'lockwaits: line 7: journal
lockwaits: "mo??ve": line 2 of the journal: no run that ends at rest goes on so
status 8' "$(PATH=$room/no-rt && said "$waits/lockwaits" <"$room/bad")"
printf '# bad\nnodes 1\nset s\nset t\njournal\nowner s 0 0\n' >"$room/bad"
expect 'lockwaits, a journal too short' 'lockwaits: line 7: journal
lockwaits: line 2 of the journal is missing: no run ends here at rest; due there is owner t 0 0
status 8' "$(said "$waits/lockwaits" <"$room/bad")"
waits_on_a_terminal() {
  printf '# fault\nnodes 1\nset s\nclient a at 0\na lock s reed\n' >"$room/refused"
  expect 'lockwaits, refused, on a terminal' 'lockwaits: line 5: S10
  a lock s reed
           ^^^^
  not a mode: intention_read, read, upgrade, intention_write or write
status 2' "$(on_terminal "'$waits/lockwaits' <'$room/refused'; echo status \$?")"
  printf '# bad\nnodes 1\nset s\n# journal\n journal\r\nowner s 0 0\nmo\001ve\r\n' >"$room/refused"
  expect 'lockwaits, a bad journal, on a terminal' 'lockwaits: line 7: journal
  mo?ve
  line 2 of the journal: no run that ends at rest goes on so; due there is end 0
status 8' "$(on_terminal "'$waits/lockwaits' <'$room/refused'; echo status \$?")"
  printf '# bad\nnodes 1\nset s\nset t\njournal\nowner s 0 0\n' >"$room/refused"
  expect 'lockwaits, a journal too short, on a terminal' 'lockwaits: line 7: journal
  line 2 of the journal is missing: no run ends here at rest; due there is owner t 0 0
status 8' "$(on_terminal "'$waits/lockwaits' <'$room/refused'; echo status \$?")"
}
if [ "$(on_terminal 'test -t 2 && echo yes')" = yes ]; then waits_on_a_terminal; fi

# locklive takes no words, and explains a script that is refused.
live=$room/live
make_top "$live" && mkdir -p "$live/crates/locklive/out" "$live/crates/locklive/src" && : >"$live/crates/locklive/src/main.rt"
expect 'locklive, unproved' 'locklive: not proved: no program is built from these sources; ./build locklive proves them and makes it
locklive: not proved: the sources are compiled for this run, in a minute or more
locklive: read fault
status 4' "$(PATH=$with_rt && said "$live/locklive" </)"
printf '%s\n' '#!/bin/sh
input=$(cat) || { echo "locklive: read fault" >&2; exit 4; }
case $input in
  "# fault"*) echo "locklive: line 5: S10" >&2; exit 2 ;;
  "# many"*) echo "locklive: too many commands of client 3" >&2; exit 10 ;;
esac
echo "<$input>"' >"$live/crates/locklive/out/locklive" && chmod +x "$live/crates/locklive/out/locklive"
printf 'crates.txt\ncrates/locklive/src\ncrates/locklive/src/main.rt\n' >"$live/crates/locklive/out/sources"
expect 'locklive' '<nodes 1
set s>
status 0' "$(printf 'nodes 1\nset s\n' | said "$live/locklive")"
printf '# many\nnodes 1\nset s\nclient a at 0\nclient b at 0\nclient c at 0\n client d at 0\nd lock s read\nd unlock s read\n' \
  >"$room/many"
expect 'locklive, too many commands' 'locklive: too many commands of client 3
locklive: " client d at 0": line 7: d has 2 commands, and each of 4 clients at most 1024
status 10' "$(said "$live/locklive" <"$room/many")"
expect 'locklive with a word' 'locklive: usage: locklive
locklive: and also: --help | --version
locklive: "a.script" is no file that can be read, and nothing else may stand there
status 1' "$(said "$live/locklive" a.script </dev/null)"
expect 'locklive with two words' 'locklive: usage: locklive
locklive: and also: --help | --version
locklive: "two" is one word too many
status 1' "$(said "$live/locklive" one two </dev/null)"
expect 'locklive with a file' '<# stuck>
status 0' "$(said "$live/locklive" "$room/stuck")"
expect 'locklive --version' "locklive $(cat "$here/VERSION")
status 0" "$(said "$live/locklive" --version)"
expect 'locklive --help names the status of a share' 1 "$("$live/locklive" --help | grep -c ' 10  a client has more commands')"
live_on_a_terminal() {
  printf '# fault\nnodes 1\nset s\nclient a at 0\na lock s reed\n' >"$room/refused"
  expect 'locklive, refused, on a terminal' 'locklive: line 5: S10
  a lock s reed
           ^^^^
  not a mode: intention_read, read, upgrade, intention_write or write
status 2' "$(on_terminal "'$live/locklive' <'$room/refused'; echo status \$?")"
  expect 'locklive, too many commands, on a terminal' 'locklive: too many commands of client 3
   client d at 0
  line 7: d has 2 commands, and each of 4 clients at most 1024
status 10' "$(on_terminal "'$live/locklive' <'$room/many'; echo status \$?")"
}
if [ "$(on_terminal 'test -t 2 && echo yes')" = yes ]; then live_on_a_terminal; fi

# Each fault: the script, the line, the fault, the place of the caret, and how many carets there are.
fault() {
  expect "fault $3 in line $2 of: $1" "$4 $5 $6" "$(printf "$1" | "$here/tools/explain" "$2" "$3" | awk '
    NR == 2 { match($0, /\^+/); at = RSTART - 2; long = RLENGTH }
    NR == 3 { print at, long, substr($0, 3) }')"
}
head='nodes 2\nset s\nclient a at 0\nclient b at 1\n'
fault 'nodes 1\nset caf\351\n' 2 1 8 1 'not printable ASCII (shown as ?)'
fault "nodes 1$(printf '%194s' '')\n" 1 2 35 1 'the line is longer than 200 bytes'
fault "$head"'a grab s read\n' 5 3 3 4 'not a command: lock, try, unlock, change or drop'
fault "$head"'a lock s\n' 5 3 10 1 'the form is: CLIENT lock SET MODE'
fault "$head"'a  change\ts read write more\r\n' 5 3 24 4 'the form is: CLIENT change SET MODE MODE'
fault 'nodes 2\nclient a on 0\n' 2 3 10 2 'the form is: client NAME at NODE'
fault 'nodes 2\nset\n' 2 3 5 1 'the forms are: set NAME, and set NAME with SET'
fault 'nodes 2\nlock\n' 2 3 1 4 'no line of a script: version, nodes, set, client, or a client with its command'
fault 'nodes 0\n' 1 4 7 1 'a script has 1 to 16 nodes'
fault 'nodes two\n' 1 4 7 3 'not a number: 1 to 9 digits'
fault 'nodes 2\nclient a at 2\n' 2 4 13 1 'not a node of this script, which has nodes 0 to 1'
fault 'set s\n' 1 5 1 3 'the first line must be `nodes NUMBER`'
fault "$head"'nodes 2\n' 5 5 1 5 'the number of nodes is given once, before all sets and clients'
fault 'nodes 1\nset 9s\n' 2 6 5 2 'not a name: 1 to 32 letters, digits, _, - and ., a letter first, and not nodes, set, client, journal or version'
fault "$head"'client s at 0\n' 5 7 8 1 'declared before, in line 2'
fault 'nodes 1\nset s\na lock s read\n' 3 8 1 1 'no client of this name was declared before'
fault "$head"'a lock b read\n' 5 8 8 1 'b is a client, and not a set'
fault "$head"'a drop b t\n' 5 8 10 1 'no set of this name was declared before'
fault 'nodes 17\n' 1 9 7 2 'a script has at most 16 nodes, and 64 if its first line is `version 2`'
fault 'nodes 65\n' 1 9 7 2 'a script has at most 16 nodes'
fault "$(awk 'BEGIN { printf "nodes 16\\n"; for (k = 0; k < 65; k++) printf "client c%d at %d\\n", k, k % 16 }')" 66 9 8 3 \
  'a script has at most 64 clients, and 256 if its first line is `version 2`'
fault "$head"'a change s read ride\n' 5 10 17 4 'not a mode: intention_read, read, upgrade, intention_write or write'
fault "$head"'a drop b s\n' 5 11 8 1 'b is on node 1, and a on node 0: a client drops and withdraws for clients of its own node'
second='version 2\n'"$head"
fault 'version 3\n' 1 3 9 1 'the forms are: version 2, and version 3'
fault 'version\n' 1 3 9 1 'the forms are: version 2, and version 3'
fault 'version 02\n' 1 3 9 2 'the forms are: version 2, and version 3'
fault 'version 2 2\n' 1 3 11 1 'the forms are: version 2, and version 3'
fault 'nodes 1\nversion 2\n' 2 5 1 7 'the version is given once, before all other lines'
fault 'version 2\nset s\n' 2 5 1 3 'the first line must be `nodes NUMBER`, after the version'
fault 'version 2\nnodes 0\n' 2 4 7 1 'a script of version 2 has 1 to 64 nodes'
fault 'version 2\nnodes 65\n' 2 9 7 2 'a script of version 2 has at most 64 nodes'
fault "$head"'a lock s read_intention_write\n' 5 10 10 20 'not a mode of version 1: the first line would be `version 2`'
fault "$second"'a change s read_intention_write ride\n' 6 10 33 4 'not a mode: intention_read, read, upgrade, intention_write, read_intention_write or write'
expect 'a script without a line' '  the script has no line `nodes NUMBER`' "$(printf '# nothing\n' | "$here/tools/explain" 2 5)"

# Each line of nested transactions that is refused: the lines, the last of which it is, the place of the caret and so on.
nested_fault() {
  expect "the last line of: $1" "$2 $3 $4" "$(printf "$1" | "$here/tools/explain" "$(printf "$1" | wc -l)" | awk '
    NR == 2 { match($0, /\^+/); at = RSTART - 2; long = RLENGTH }
    NR == 3 { print at, long, substr($0, 3) }')"
}
nest_head='set s\np begin\n'
nested_fault 'set\n' 5 1 'the form is: set S'
nested_fault 'set s more\r\n' 7 4 'the form is: set S'
nested_fault 'p\n' 1 1 'no line: set, or a transaction with begin, lock, try, commit or abort'
nested_fault "$nest_head"'p unlock s read\n' 3 6 'not one of begin, lock, try, commit and abort'
nested_fault 'p begin under q\n' 9 5 'the forms are: T begin, and T begin in P'
nested_fault 'p begin in\n' 12 1 'the forms are: T begin, and T begin in P'
nested_fault "$nest_head"'p  lock\ts\n' 11 1 'the form is: T lock S MODE'
nested_fault "$nest_head"'p try s read now\n' 14 3 'the form is: T try S MODE'
nested_fault "$nest_head"'p commit now\n' 10 3 'the form is: T commit'
nested_fault "$nest_head"'q begin in s\n' 12 1 's is a set, and not a transaction'
nested_fault "$nest_head"'s begin\n' 1 1 'declared before, in line 1'
nested_fault "$nest_head"'# q begin\nq abort\n' 1 1 'no transaction of this name was declared before'
nested_fault "$nest_head"'p lock t read\n' 8 1 'no set of this name was declared before'
nested_fault "$nest_head"'p lock s raed\n' 10 4 'not a mode: intention_read, read, upgrade, intention_write, read_intention_write or write'
nested_fault 'set begin\n' 5 5 'not a name: 1 to 32 letters, digits, _, - and ., a letter first, and not nodes, set, client, journal, version or begin'
nested_fault "$(printf 'set s%s\\n' 1 2 3 4 5 6 7 8 9)" 5 2 'an input has at most 8 sets'
nested_fault "$(awk 'BEGIN { for (k = 1; k <= 257; k++) printf "p%d begin\\n", k }')" 1 4 'an input has at most 256 transactions'
nested_fault "$(awk 'BEGIN { printf "p begin\\n# no line\\n"; for (k = 1; k <= 65535; k++) printf "p abort\\n" }')" 1 1 \
  'an input has at most 65,535 lines that say something'

echo "tests/gate/wrapper.sh: $tests tests, $failed failed"
[ $failed -eq 0 ]
