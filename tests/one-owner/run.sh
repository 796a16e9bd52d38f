#!/usr/bin/env bash
# One owner: what befalls a journal of examples/pay that two programs want, that is moved away, that another program
# writes to, where the standard streams are closed, where a value of the facts was corrected, in the fact file or by the
# name of another column of it, and where a journal or a seal is a link or has two names. Each is done, and seen to tell
# nothing more.
set -eu
here=$(cd "$(dirname "$0")" && pwd)
pay=$here/../../examples/pay
cube=${CUBE:-$here/../../cube}
work=$(mktemp -d)
trap 'rm -rf "$work"' EXIT
journal=$work/pay.journal
options=(--dims "$pay/dims.toml" --facts "$pay/facts.csv" --policy "$pay/policy.toml" --journal "$journal")
areas='slice pay by region.area where time.month=Jan'
grades='slice pay by grade.grade where time.month=Jan'

fail() {
    echo "one owner: $1" >&2
    exit 1
}

# Starts `ask` on the journal, its input kept open on descriptor 3, and waits for the answer to a first line.
begin() {
    rm -f "$work/input" && mkfifo "$work/input"
    "$cube" ask "${options[@]}" < "$work/input" > "$work/replies" 2> "$work/notes" &
    exec 3> "$work/input"
    echo "$1" >&3
    wait_for "$2"
}

# Waits until so many replies stand in the output.
wait_for() {
    for _ in $(seq 100); do
        [ "$(grep -cE '^[0-9]{3} [0-9]+$' "$work/replies")" -ge "$1" ] && return
        sleep 0.1
    done
    fail "no reply"
}

finish() {
    exec 3>&-
    wait
}

# Asks over a journal, and perhaps over other facts; sees the status, a note, and that nothing was answered.
refuses() {
    local status=0
    echo "$areas" | "$cube" ask --dims "$pay/dims.toml" --facts "${4:-$pay/facts.csv}" --policy "$pay/policy.toml" --journal "$1" \
        > "$work/replies" 2> "$work/notes" || status=$?
    [ "$status" -eq "$2" ] || fail "$(basename "$1"): status $status, not $2"
    grep -q "$3" "$work/notes" || fail "$(basename "$1"): no note '$3'"
    [ ! -s "$work/replies" ] || fail "$(basename "$1"): answered"
}

# Sees that the areas are answered over a journal as they were before.
answers() {
    echo "$areas" | "$cube" ask --dims "$pay/dims.toml" --facts "$pay/facts.csv" --policy "$pay/policy.toml" --journal "$1" 2> "$work/notes" |
        cmp -s - "$work/open" || fail "$(basename "$1"): another reply"
}

"$cube" --version > /dev/null
begin "$areas" 1
cp "$journal" "$work/before"
status=0
echo "$grades" | "$cube" ask "${options[@]}" > "$work/second" 2> "$work/second-notes" || status=$?
[ "$status" -eq 9 ] || fail "a second program ended with $status"
[ ! -s "$work/second" ] || fail "a second program answered"
grep -q 'in use by another program' "$work/second-notes" || fail "no note on the lock"
cmp -s "$journal" "$work/before" || fail "a second program changed the journal"
echo "a second program on the journal ends with status 9 and changes nothing"

mv "$journal" "$work/away"
echo "slice hours by region.area" >&3
wait_for 2
grep -q '^journal fault$' "$work/replies" || fail "an answer went to a journal without a name"
grep -q 'moved or deleted' "$work/notes" || fail "no note on the move"
[ ! -e "$journal" ] || fail "a journal was made anew"
echo other > "$journal"
echo "slice hours by region.area" >&3
wait_for 3
[ "$(grep -c '^journal fault$' "$work/replies")" -eq 2 ] || fail "an answer went to another file than the journal"
[ "$(cat "$journal")" = other ] || fail "another file in the place of the journal was changed"
mv "$work/away" "$journal"
echo "slice hours by region.area" >&3
wait_for 4
cmp -s <(head -n 2 "$journal") "$work/before" || fail "a moved journal was changed"
echo "a journal that is moved away gets nothing, nor does what stands in its place, and it goes on once it is back"

echo 'q slice pay by time.month' >> "$journal"
cp "$journal" "$work/before"
echo "slice hours by time.month" >&3
wait_for 5
grep -q 'changed by another program' "$work/notes" || fail "no note on the change"
cmp -s "$journal" "$work/before" || fail "a line of another program was cut away"
finish
echo "a journal that another program wrote to is left as it is"

rm "$journal"
echo "$areas" | "$cube" ask "${options[@]}" > "$work/open"
rm "$journal"
echo "$areas" | "$cube" ask "${options[@]}" > "$work/shut" 2>&-
cmp -s "$work/open" "$work/shut" || fail "other replies with standard error closed"
cp "$journal" "$work/before"
echo "$areas" | "$cube" ask "${options[@]}" >&- 2>&- || fail "closed streams"
"$cube" ask "${options[@]}" <&- || fail "a closed input"
cmp -s "$journal" "$work/before" || fail "a closed stream wrote into the journal"
echo "$areas" | "$cube" ask "${options[@]}" | cmp -s - "$work/open" || fail "the journal does not open again"
echo "closed standard streams write nothing into the journal"

sed 's/^Jan,Paris,clerk,2159.79,/Jan,Paris,clerk,2160.79,/' "$pay/facts.csv" > "$work/facts.csv"
! cmp -s "$pay/facts.csv" "$work/facts.csv" || fail "no value was corrected"
# Asks over a dimension file and a fact file.
ask_over() {
    status=0
    echo "$areas" | "$cube" ask --dims "$1" --facts "$2" --policy "$pay/policy.toml" --journal "$3" > "$work/replies" 2> "$work/notes" || status=$?
}

# Asks so over other values than the journal was begun over, and is refused.
refused_over() {
    cp "$3" "$work/before"
    cp "$3.seal" "$work/seal"
    ask_over "$1" "$2" "$3"
    [ "$status" -eq 4 ] || fail "$4: another status than 4"
    grep -q '^journal: values [0-9a-f]* are not [0-9a-f]*$' "$work/notes" || fail "$4: another text"
    grep -q '^the journal was begun over other values$' "$work/notes" || fail "$4: no note"
    [ ! -s "$work/replies" ] || fail "$4: answered"
    cmp -s "$3" "$work/before" || fail "$4: the journal was changed"
    cmp -s "$3.seal" "$work/seal" || fail "$4: the seal was changed"
}

refused_over "$pay/dims.toml" "$work/facts.csv" "$journal" "corrected facts"
echo "a journal is not opened over corrected facts"

# A fact file with both values, each in a column of its own, and a dimension file for each.
paste -d , "$pay/facts.csv" <(cut -d , -f 4 "$work/facts.csv" | sed 's/^pay$/corrected/') > "$work/both.csv"
sed 's/^name = "pay"$/name = "pay"\ncolumn = "corrected"/' "$pay/dims.toml" > "$work/dims.toml"
! cmp -s "$pay/dims.toml" "$work/dims.toml" || fail "no other column was named"
ask_over "$pay/dims.toml" "$work/both.csv" "$work/both.journal"
[ "$status" -eq 0 ] || fail "two columns: not answered"
refused_over "$work/dims.toml" "$work/both.csv" "$work/both.journal" "another column"
echo "a journal is not opened over another column of the same fact file"

{ head -n 1 "$pay/facts.csv"; tail -n +2 "$pay/facts.csv" | sort; } > "$work/sorted.csv"
! cmp -s "$pay/facts.csv" "$work/sorted.csv" || fail "the facts were sorted before"
cp "$work/open" "$work/expected"
ask_over "$pay/dims.toml" "$work/sorted.csv" "$journal"
[ "$status" -eq 0 ] || fail "sorted facts: not answered"
cmp -s "$work/replies" "$work/expected" || fail "sorted facts: another answer"
echo "a journal is opened over the same values in another order"

ln -s "$journal" "$work/link"
refuses "$work/link" 4 '^journal: values ' "$work/facts.csv"
answers "$work/link"
[ ! -e "$work/link.seal" ] || fail "a link has a seal of its own"
touch "$work/link.seal"
refuses "$work/link" 9 'link.seal: another file than the one beside the journal itself'
rm "$work/link.seal"
options[7]=$work/link
begin "$areas" 1
ln -sfn "$work/before" "$work/link"
echo "slice hours by region.area" >&3
wait_for 2
grep -q '^journal fault$' "$work/replies" || fail "an answer went to a journal to which its link leads no more"
finish
ln -s "$work/made" "$work/to-be-made"
answers "$work/to-be-made"
[ -s "$work/made.seal" ] || fail "no seal beside what a link led to before it was there"
echo "a journal behind a link has the seal of the journal itself"

ln "$journal" "$work/other"
refuses "$journal" 9 'pay.journal: has another name (a hard link)'
refuses "$work/other" 9 'other: has another name (a hard link)'
rm "$work/other"
answers "$journal"
mv "$journal.seal" "$work/seal"
ln -s "$work/seal" "$journal.seal"
refuses "$journal" 9 'pay.journal.seal: a symbolic link'
mv "$work/seal" "$journal.seal"
answers "$journal"
echo "a journal that has two names is refused, and a seal that is a link"

: > "$work/script"
ln -s "$journal" "$work/groups.journal.1"
status=0
(cd "$here/../.." && "$cube" replay --dims "$pay/dims.toml" --facts "$pay/facts.csv" --groups examples/groups/groups.toml \
    --journal "$work/groups.journal" --script "$work/script") > "$work/replies" 2> "$work/notes" || status=$?
[ "$status" -eq 9 ] || fail "a link for the journal of a group: status $status"
grep -q 'groups.journal.1: a symbolic link' "$work/notes" || fail "no note on the link of a group"
echo "the journal of a further group is no link"

(umask 0 && answers "$work/new.journal")
chmod 640 "$journal"
answers "$journal"
modes=$(stat -c %a "$work/new.journal" "$work/new.journal.seal" "$journal" | xargs)
[ "$modes" = "600 600 640" ] || fail "modes $modes"
echo "a journal and a seal are made for their owner alone, and a journal that is there keeps its mode"

printf 'facts %s\n' "$(sha256sum "$pay/facts.csv" | cut -d ' ' -f 1)" > "$journal.seal"
ask_over "$pay/dims.toml" "$pay/facts.csv" "$journal"
[ "$status" -eq 4 ] || fail "an earlier seal: another status than 4"
grep -q '^journal: seal damaged$' "$work/notes" || fail "an earlier seal: another text"
grep -q 'is of an earlier form' "$work/notes" || fail "an earlier seal: no note"
echo "a seal of an earlier form is refused, and a note says what it is"
