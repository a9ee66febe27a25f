#!/bin/sh
# Tries weakened definitions: tests/hand/definitions/NAME.patch makes a definition say less, or other words, and changes what stands
# on it as a careless hand would. The crates of the patch are to stay proved, and the law that it names is to refuse it, at each
# lemma that its line `refused` names. It works on a copy of the laws and of all that they stand on, with what checks kept of
# it; first each law is proved there as it is. Patches of one law that fit together and name no lemma twice are tried at once,
# so that what stands between is proved once for all of them; where that doesn't show of each that it is refused, and so of a
# patch that names no lemma, it is tried alone. It prints a line for each patch, and its status is 0 if each was refused.
# Without names it tries all.
top=$(CDPATH='' cd -- "$(dirname -- "$0")/../.." && pwd) || exit 1
[ $# -gt 0 ] || set -- $(cd "$top/tests/hand/definitions" && ls | sed -n 's/\.patch$//p')
copy=$(mktemp -d) || exit 1
trap 'rm -rf "$copy"' EXIT

# the words behind this one, `law` or `refused`, in a patch
said() { sed -n "s/^$1: //p" "$top/tests/hand/definitions/$2.patch"; }

# copies a crate of the repository, and those that it stands on
bring() {
  [ -d "$top/crates/$1" ] && [ ! -d "$copy/crates/$1" ] || return 0
  cp -a "$top/crates/$1" "$copy/crates" || exit 1
  for below in $(sed -n "s/^$1\( [^:]*\)\{0,1\}: //p" "$top/crates.txt"); do bring "$below"; done
}

# checks a law in the copy
check() { (cd "$copy/crates/$1" && rt check) > "$copy/log" 2>&1; }

# does a patch in the copy, or what the flag says of it
apply() { patch -s -p1 -d "$copy" $2 < "$top/tests/hand/definitions/$1.patch" > "$copy/fit" 2>&1; }

# whether each of the first words is among the others
among() {
  words=$1; shift
  for word in $words; do case " $* " in *" $word "*) ;; *) return 1 ;; esac; done
}

# does these patches, which fit together, and checks their law; each that is refused is told, and the others are `left`
try() {
  law=$(said law "$1") undo='' left='' lemmas='' verdict=refused
  for patch; do apply "$patch" && undo="$patch $undo" lemmas="$lemmas $(said refused "$patch")"; done
  if check "$law"; then verdict=STANDS
  elif grep -q 'did not build' "$copy/log"; then verdict="refused below $law: $(grep -m 1 'did not build' "$copy/log")"
  elif ! grep -q '^logic=not-proved' "$copy/log"; then verdict="no verdict: $(tail -n 1 "$copy/log")"
  fi
  for patch in $undo; do apply "$patch" -R || exit 1; done
  at=$(sed -n 's/.*error: `\([^`]*\)`: .*/\1/p' "$copy/log" | sort -u)
  for patch; do
    own=$(said refused "$patch")
    if [ "$verdict" = refused ] && { [ $# = 1 ] || { among "$own" $at && among "$at" $lemmas; }; }; then
      refused=$((refused + 1))
      [ $# -gt 1 ] || own=$at
      echo "$patch: refused by $law, at" $own
    elif [ $# -gt 1 ]; then left="$left $patch"
    else echo "$patch: $verdict"
    fi
  done
}

mkdir "$copy/crates" && cp "$top/HANDLES" "$copy" || exit 1
laws=$(for patch; do said law "$patch"; done | sort -u)
for law in $laws; do bring "$law"; done
while read -r line; do [ ! -d "$copy/crates/${line%%[ :]*}" ] || echo "$line"; done < "$top/crates.txt" > "$copy/crates.txt"
for law in $laws; do
  check "$law" || { cat "$copy/log"; echo "$law isn't proved as it is"; exit 1; }
done

all=$# refused=0
while [ $# -gt 0 ]; do
  together='' undo='' lemmas='' later=''
  for patch; do
    own=$(said refused "$patch") free=1
    [ -z "$together" ] || { [ -n "$own" ] && [ -n "$lemmas" ]; } || free=''
    for lemma in $own; do ! among "$lemma" $lemmas || free=''; done
    if [ -n "$free" ] && [ "$(said law "$patch")" = "$(said law "$1")" ] && apply "$patch" --dry-run; then
      apply "$patch" && together="$together $patch" undo="$patch $undo" lemmas="$lemmas${own:+$own }"
    else
      later="$later $patch"
    fi
  done
  for patch in $undo; do apply "$patch" -R || exit 1; done
  [ -n "$together" ] || { echo "$1: the patch doesn't fit"; exit 1; }
  try $together
  for patch in $left; do try "$patch"; done
  set -- $later
done
echo "$all weakened definitions, $refused refused"
[ "$refused" = "$all" ]
