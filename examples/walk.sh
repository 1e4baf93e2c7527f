#!/usr/bin/env bash
# A first project, from files to a curated layer, in a folder of its own: docs/getting-started.md, run whole.
#
#     examples/walk.sh [PROGRAM]      the program is annotate beside this folder, where none is named
set -eu
here="$(cd "$(dirname "${BASH_SOURCE[0]}")" && pwd)"
annotate="$(readlink -f "${1:-$here/../annotate}")"
# The program itself, where that is a script that runs it: what is killed is the program.
program="$annotate"
if [ "$(head -c 2 "$annotate")" = "#!" ]; then
    "$annotate" --version >/dev/null
    program="$("$annotate" which | cut -d: -f1)"
fi
folder="$(mktemp -d)"
trap 'rm -rf "$folder"' EXIT
cd "$folder"

# Runs words and compares what is printed with what has to be.
expect() {
    local wanted="$1" found
    shift
    found="$("$annotate" "$@")"
    if [ "$found" != "$wanted" ]; then
        printf 'walk: %s printed\n%s\nand not\n%s\n' "$*" "$found" "$wanted" >&2
        exit 1
    fi
    printf '$ annotate %s\n%s\n' "$*" "$found"
}

expect 'annotators 3 curators 1' found news.book "$here/news.conf" "$here/roster.csv"
for text in lima,4 oslo,5 rome,5; do
    expect "tokens ${text#*,}" add news.book cur "${text%,*}" "$here/texts/${text%,*}.txt"
done
"$annotate" session news.book <"$here/session.http" >/dev/null
expect $'T1\tPerson 0 3\tAnn\nT2\tPerson 8 11\tBob' export news.book ann rome

# A folder of .ann files, one of which is faulty: it is named with its line and the rule, and the others are there.
for file in "$here"/marks/*.ann; do
    name="$(basename "$file" .ann)"
    "$annotate" import news.book bob "$name" "$file" 2>said || echo "$name: $(cat said)"
done >imported
printf '%s\n' 'lima: ann line 2: Broken UnknownType' 'revision 1' 'revision 1' | diff - imported
cat imported
expect 'first,second,units,agreed,top,bottom,kappa
ann,bob,5,3,8,18,0.4444
ann,cid,0,0,0,0,undefined
bob,cid,0,0,0,0,undefined

units,values,top,bottom,alpha
5,10,10810800,23783760,0.4545' agree news.book
expect 'first,second,sort,both,first_only,second_only,top,bottom,score
ann,bob,spans,2,0,2,4,6,0.6666
ann,bob,events,0,0,1,0,1,0.0000
ann,bob,relations,0,0,1,0,1,0.0000
ann,cid,spans,0,0,0,0,0,undefined
ann,cid,events,0,0,0,0,0,undefined
ann,cid,relations,0,0,0,0,0,undefined
bob,cid,spans,0,0,0,0,0,undefined
bob,cid,events,0,0,0,0,0,undefined
bob,cid,relations,0,0,0,0,0,undefined' scores news.book
expect $'Ann\tB-Person\nmet\tO\nBob\tB-Person\nin\tO\nRome\tO' columns-out news.book ann rome
"$annotate" session news.book <"$here/curate.http" >/dev/null
expect $'T1\tPerson 0 3\tAnn\nT2\tPerson 8 11\tBob\nT3\tLocation 15 19\tRome\nR1\tLocated Arg1:T1 Arg2:T3' curated news.book 1
expect 'document,annotator,revision,state,ignored,annotations,parked
lima,ann,0,none,false,0,0
lima,bob,0,none,false,0,0
lima,cid,0,none,false,0,0
oslo,ann,0,none,false,0,0
oslo,bob,1,open,false,3,0
oslo,cid,0,none,false,0,0
rome,ann,1,finished,false,2,0
rome,bob,1,finished,false,6,0
rome,cid,0,none,false,0,0' progress news.book
expect 'snapshot,document,holders,items,unanimous,accepted,rejected,undecided
1,rome,2,6,2,2,0,2' snapshots news.book

# A session is killed while it commits. Behind that the project opens, and has the change where it was answered.
there=
for delay in 0 0.002 0.004 0.008 0.016 0.032 0.064; do
    "$program" session news.book < <(cat "$here/commit.http"; exec sleep 5) >answers &
    session=$!
    sleep "$delay"
    kill -KILL "$session" 2>/dev/null || true
    wait "$session" 2>/dev/null || true
    found="$("$annotate" export news.book ann oslo 2>refused || cat refused)"
    case "$found" in
        $'T1\tPerson 0 3\tEva') there=yes ;;
        'refused: NoLayer') [ -z "$there" ] ;;
        *) printf 'walk: behind a kill, export printed\n%s\n' "$found" >&2; exit 1 ;;
    esac
    if grep -q '^{"revision":' answers; then
        [ -n "$there" ]
    fi
done
echo "seven sessions were killed"
[[ "$("$annotate" compact news.book news.new)" =~ ^place\ [0-9]+$ ]]
expect $'T1\tPerson 0 3\tAnn\nT2\tPerson 8 11\tBob\nT3\tLocation 15 19\tRome\nR1\tLocated Arg1:T1 Arg2:T3' curated news.new 1
if "$annotate" add news.book cur rome "$here/news.txt" 2>refused; then
    echo "walk: a document was added twice" >&2
    exit 1
fi
[ "$(cat refused)" = 'refused: DocumentThere' ]
echo "the walk is done"
