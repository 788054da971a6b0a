#!/usr/bin/env bash
# The program beside a program that uses the database, which the product stands for. Within a transaction, and while a reader has the
# file open, every command refuses and changes nothing, and the transaction then commits. Beside a writer, in a loop, no row that the
# product has said to be committed is lost and the file stays sound. Last, the product begins at a random moment before or within a `rekey`.
# With SQLite's lock, which the launcher takes, no file may be lost. The bare program looks before it writes, which leaves gaps
# (company.py stops it in them): how many files it loses is printed, and more than one in ten is wrong.
#
#     tests/beside_an_app.sh [TRIALS [SEED]]
#
# TRIALS is how many runs of `rekey` the product begins in, with the lock and without it, 40 where it is not given. PROGRAM names another program.
set -u
. "$(dirname "$0")/common.sh"
begin 'beside an app'
trials=${1:-40}
seed=${2:-7}

. "$top/tests/others.sh"
# (the table is empty while nobody has a lock)
flock "$scratch" grep -q . /proc/locks 2> /dev/null || { leave_out "all of it, since /proc/locks is not there or has nothing"; finish; }
needs sqlcipher

write_database 3 "$k1" "$scratch/file" 200
printf '%s\n' "$k1" "$k2" > "$scratch/keys"
each=$(commands 3 3 check part recovery change script)

# ---- while the product has the file

# Each command, run by the product's own shell while it holds its locks. It is refused, and `probe` answers.
each_command() { # each_command FILE OUT: lines of SQL that run them
    local words
    while read -r words; do
        echo ".system cp $1 $2.before; $program $1 $words < $scratch/keys > $2.lines 2> $2.errors; echo \"\$? \$(wc -c < $2.lines) \$(cmp -s $1 $2.before && echo same || echo changed) \$(grep -c 'another program has the file open (process ' $2.errors) $words\" >> $2"
    done <<< "$each"
    echo ".system $program $1 probe < $scratch/keys > $2.lines 2> $2.errors; echo \"\$? \$(grep -c 'another program has the file open (process ' $2.errors) probe\" >> $2"
}

held() { # held NAME SQL_BEFORE SQL_AFTER ROWS: what stands in the log afterwards
    local file=$scratch/$1.db out=$scratch/$1.out line count=0
    cp "$scratch/file" "$file"
    { printf '%s\n' "$2"; each_command "$file" "$out"; printf '%s\n' "$3"; } | sql 3 "$k1" "$file" > /dev/null
    while read -r line; do
        count=$((count + 1))
        case $line in
            "4 0 same 1 "*) ;;
            *probe) [ "$line" = "$5" ] || say "$1: probe gave $line" ;;
            *) say "$1: status, bytes printed, file, lines that say so: $line" ;;
        esac
    done < "$out"
    [ "$count" -eq $(($(wc -l <<< "$each") + 1)) ] || say "$1: only $count commands ran"
    [ "$(echo 'SELECT count(*) FROM log;' | sql 3 "$k1" "$file")" = "$4" ] || say "$1: LOST: the product's transaction is not there"
    [ "$(check 3 "$k1" "$file")" = ok ] || say "$1: LOST: the product does not find it sound"
    [ "$(printf '%s\n' "$k1" | "$program" "$file" verify 3 2> /dev/null | cut -d: -f1)" = ok ] || say "$1: the program does not find it sound afterwards"
}

# Pages are spilled, so the journal is hot and the file part new.
held spilled "PRAGMA cache_size = 5; BEGIN; UPDATE items SET value = randomblob(2000); INSERT INTO log VALUES(1);" "COMMIT;" 1 "2 1 probe"
# Nothing is spilled: there is a journal, and the file is as it was.
held small "BEGIN; INSERT INTO log VALUES(1);" "COMMIT;" 1 "2 1 probe"
held reading "BEGIN; SELECT count(*) FROM items;" "COMMIT;" 0 "0 1 probe"
held wal "PRAGMA journal_mode = WAL; BEGIN; SELECT count(*) FROM items;" "COMMIT; PRAGMA journal_mode = DELETE;" 0 "0 1 probe"

# ---- beside a writer

transactions() { # transactions FROM TO: each prints its number once it is committed
    local i
    printf ".timeout 5000\nPRAGMA cache_size = 5;\n"
    for i in $(seq "$1" "$2"); do
        echo "BEGIN IMMEDIATE; UPDATE items SET value = randomblob(1500), name = name || '.' WHERE id % 5 = $((i % 5)); INSERT INTO log VALUES($i); COMMIT; SELECT $i;"
    done
}

# All that was said to be committed is there, under the key given.
settled() { # settled NAME FILE KEY
    local missing
    echo 'SELECT id FROM log;' | sql 3 "$3" "$2" | sort > "$2.there"
    missing=$(sort "$2.said" | comm -23 - "$2.there" | wc -l)
    [ "$(check 3 "$3" "$2")" = ok ] && [ "$missing" -eq 0 ]
}

# The product's shell in one session, and the program again and again.
loops() { # loops NAME COMMANDS: with a line of words for each command
    local name=$1 file=$scratch/$1.db runs=0 refused=0 app words
    cp "$scratch/file" "$file"
    { { echo ".output /dev/null"; opening 3 "$k1"; echo ".output stdout"; transactions 1 60; } | sqlcipher -batch "$file" > "$file.said" 2> "$file.errors"; } &
    app=$!
    while kill -0 "$app" 2> /dev/null; do
        while read -r words; do
            # shellcheck disable=SC2086
            printf '%s\n' "$k1" "$k1" | "$program" "$file" $words > /dev/null 2> "$file.tool"
            case $? in
                0) ;;
                4) grep -qE 'another program|replaced' "$file.tool" && refused=$((refused + 1)) ;;
                # A change between two reads may be taken for damage, and the file is then said to have changed.
                *) grep -q 'another program' "$file.tool" || say "$name: $words: $(head -n 1 "$file.tool")" ;;
            esac
            runs=$((runs + 1))
        done <<< "$2"
    done
    wait "$app"
    settled "$name" "$file" "$k1" || say "$name: LOST: a committed row is missing, or the file is not sound"
    echo "beside an app: $name: $runs runs, $refused refused; the product committed $(wc -l < "$file.said") of 60 and met $(wc -l < "$file.errors") errors"
    [ "$refused" -gt 0 ] || say "$name: no run met the product"
}

loops verify 'verify 3' &
loops recover 'recover 3' &
loops stamp 'stamp 3 user-version 9' &
loops rekey 'rekey 3 3' &
wait

# ---- the product begins before or within a run

transaction() { # transaction FILE: one of the product, which waits for others
    { echo ".output /dev/null"; opening 3 "$k1"; echo ".output stdout"; transactions 1 1; } | sqlcipher -batch -bail "$1" > "$1.said" 2> /dev/null
}

begins() { # begins HOW FROM TO: so many runs of rekey, by the launcher (held) or not (bare), each with one transaction of the product in its midst
    local how=$1 i file key moment lost=0 met=0 said=0 launch=()
    [ "$how" = bare ] || launch=("$top/tools/launch.sh")
    for i in $(seq "$2" "$3"); do
        RANDOM=$((seed + i))
        file=$scratch/begins-$how-$i.db
        cp "$scratch/file" "$file"
        moment=$(seconds $((RANDOM % longest)))
        # With the lock the product may be first as well.
        if [ "$how" = held ] && [ $((RANDOM % 2)) -eq 0 ]; then
            transaction "$file" &
            sleep "$(seconds $((RANDOM % 20)))"
            "${launch[@]}" "$program" "$file" rekey 3 3 < "$scratch/keys" > /dev/null 2> "$file.tool"
        else
            { "${launch[@]}" "$program" "$file" rekey 3 3 < "$scratch/keys" > /dev/null 2> "$file.tool" & }
            sleep "$moment"
            transaction "$file"
        fi
        wait
        grep -qE 'another program|replaced' "$file.tool" && met=$((met + 1))
        [ ! -s "$file.said" ] || said=$((said + 1))
        cp "$file" "$file.left" && { [ ! -e "$file-journal" ] || cp "$file-journal" "$file.left-journal"; }
        "$program" "$file" recover 3 > /dev/null 2>&1 < /dev/null
        key=$(which_key 3 "$file")
        if [ -z "$key" ] || ! settled "begins $i" "$file" "$key"; then
            lost=$((lost + 1))
            [ -z "${KEEP:-}" ] || cp "$file"* "$KEEP"
        fi
        rm -f "$file"*
    done
    echo "$lost $met $said" >> "$scratch/begun-$how"
}

begun() { # begun HOW: sets `lost`
    local how=$1 from part=$(((trials + 3) / 4)) met=0 said=0
    lost=0
    for from in 1 $((part + 1)) $((2 * part + 1)) $((3 * part + 1)); do begins "$how" "$from" $((from + part - 1)) & done
    wait
    read -r lost met said < <(awk '{ lost += $1; met += $2; said += $3 } END { print lost, met, said }' "$scratch/begun-$how")
    echo "beside an app: $how: the product began before or within $((part * 4)) runs of rekey, which saw it in $met, and committed in $said: $lost lost"
}

longest=$(duration "$scratch/file" "$scratch/keys" rekey 3 3)
if has perl; then
    begun held
    [ "$lost" -eq 0 ] || say "with the lock $lost files are lost"
else
    leave_out "runs under SQLite's lock, since perl is missing"
fi
begun bare
[ $((10 * lost)) -le "$trials" ] || say "without the lock $lost of $trials files are lost"
finish
