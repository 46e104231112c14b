#!/usr/bin/env bash
# Wrong versions of the code and of the rules, each of which a check must refuse. No part of the gate.
#   bench/wrong.sh [PATTERN..]    the edits bench/wrong/CRATE/NAME.edit; only those whose CRATE/NAME fits one of some shell patterns
# An edit has the form of crates/*/must-fail/*.edit, and may say `refused by: OTHER`: its own crate still holds with it, and the crate OTHER
# above must refuse it, by a proof or, where it is a program of cases, by what it prints. Each is applied to a copy of the repository in
# target/wrong, whose checks begin with what checks here have kept: so run `rt all check` first. WRONG_JOBS edits are tried at a time, 2 where it
# is not set. What each check said is kept in target/wrong/log.
set -u
cd "$(dirname "$0")/.."
root=$(pwd -P)
place=$root/target/wrong
jobs=${WRONG_JOBS:-2}
[ $# -gt 0 ] || set -- '*'

field() { sed -n "s/^$1: //p" "$2" | head -n 1; } # NAME EDIT

# A copy of the repository, without what rt makes in it.
copy() { # ROOM
    rm -rf "$1"
    mkdir -p "$1/crates"
    cp "$root/crates.txt" "$1/"
    for crate in "$root"/crates/*; do
        mkdir "$1/crates/${crate##*/}"
        for part in "$crate"/*; do
            [ "${part##*/}" = out ] || cp -r "$part" "$1/crates/${crate##*/}/"
        done
    done
}

# Applies an edit to a copy; says what is bad of it.
apply() { # DIR EDIT
    file='' old='' pairs=0
    while IFS= read -r line || [ -n "$line" ]; do
        case $line in
        'file: '*) file=${line#file: } ;;
        'old: '*) old=${line#old: } ;;
        'new:'*)
            new=${line#new:}
            new=${new# }
            [ -f "$1/$file" ] || { echo "no file $file"; return; }
            OLD=$old NEW=$new awk '
                { text = text $0 "\n" }
                END {
                    old = ENVIRON["OLD"]; at = index(text, old)
                    if (old == "" || !at) exit 3
                    rest = substr(text, at + length(old))
                    if (index(rest, old)) exit 4
                    printf "%s%s%s", substr(text, 1, at - 1), ENVIRON["NEW"], rest
                }' "$1/$file" >"$1/edited" || { echo "its old text is in $file not just once"; return; }
            mv "$1/edited" "$1/$file"
            pairs=$((pairs + 1))
            ;;
        esac
    done <"$2"
    [ "$pairs" -gt 0 ] || echo "no old and new lines"
}

# Whether a check was refused at a fact, by its log.
#   refused   a fact is not proved (or a program of cases prints something else)
#   misfit    proof files name what the edit took away, and nothing else is wanting
#   bad       no wrong version: it does not compile, a name is not in scope, or a crate below refuses it
verdict() { # LOG CRATE
    if ! grep -q '^logic=not-proved' "$1" || grep -Eq "^rt: .* (is|was) not proved" "$1"; then
        echo bad
    elif grep -q 'error\[' "$1" || grep '/specs/[^ ]*: error: ' "$1" | grep -qv 'was not admitted'; then
        echo bad
    elif grep -E '^(note: )?[^ ]+:[0-9]+:[0-9]+:' "$1" | grep -Evq '^(note: )?(\./)?proofs/.*(has no field|is not in scope|has no `|was not admitted)'; then
        echo refused
    else
        echo misfit
    fi
}

# Whether a program prints what it must.
prints() { # DIR
    (cd "$1" && rt run <stdin 2>"$1/said" | cmp -s - stdout)
}

one() { # CRATE NAME
    edit=bench/wrong/$1/$2.edit
    room=$place/$1.$2
    log=$place/log/$1/$2
    mkdir -p "$place/log/$1"
    by=$(field 'refused by' "$edit")
    by=${by:-$1}
    began=$(date +%s)
    copy "$room"
    fault=$(apply "$room/crates/$1" "$edit")
    if [ -n "$fault" ]; then
        echo "$fault" >"$log.log"
        word=bad
    elif (cd "$room/crates/$by" && rt check) >"$log.log" 2>&1; then
        if [ -f "$room/crates/$by/stdout" ] && ! prints "$room/crates/$by"; then
            word=refused
        else
            word=accepted
        fi
    else
        word=$(verdict "$log.log" "$by")
    fi
    rm -rf "$room"
    echo "$word" >"$log.verdict"
    printf '%-9s %s/%s%s (%s s)\n' "$word" "$1" "$2" "$([ "$by" = "$1" ] || echo " by $by")" $(($(date +%s) - began))
}

rm -rf "$place"
mkdir -p "$place"
start=$(date +%s)
for edit in bench/wrong/*/*.edit; do
    name=${edit#bench/wrong/}
    name=${name%.edit}
    fits=''
    # shellcheck disable=SC2254
    for pattern; do case $name in $pattern) fits=1 ;; esac; done
    [ -n "$fits" ] || continue
    while [ "$(jobs -rp | wc -l)" -ge "$jobs" ]; do wait -n; done
    one "${name%/*}" "${name#*/}" &
done
wait
count() { find "$place" -name '*.verdict' -exec cat {} + | grep -c "^$1$"; }
refused=$(count refused) misfit=$(count misfit) accepted=$(count accepted) bad=$(count bad)
echo "$((refused + misfit + accepted + bad)) wrong versions in $(($(date +%s) - start)) s: $refused refused at a fact, $misfit where a proof's text no longer fits, $accepted accepted, $bad bad edits"
[ "$accepted" -eq 0 ] && [ "$bad" -eq 0 ]
