#!/bin/sh
# Files that are not there, empty, folders, unreadable or huge; disks that are full. A clear message, a status other
# than 0, nothing lost.
. "$(dirname "$0")/cases.sh"
trap 'umount "$scratch/disk" 2>/dev/null || true; rm -rf "$scratch"' EXIT
cd "$scratch"
none=AWR049999999000000000/
: >empty
mkdir folder
answers 0 'a board to lose' board b create 4
answers 0 'with a command on it' board b add XY0001 $none
cp b sound

# Each way of reading a file. @ stands for the file.
readings='report @
track @
track --geojson @
check @
check --exact @
explain @
join @
commute @
apply -c @
diff @ reset
diff reset @
apply @
decide --phase level --lat 0 --lon 0 --hour 0 -c @
why --phase level --lat 0 --lon 0 --hour 0 -c @
board @ list
board @ check
board @ add XY0001 '$none'
board @ take XY0001
board b add XY0001 @'

# reads STATUS FILE WHY [TEXT]: every reading of the file gives a status other than 0 and names what is wrong
reads() {
    echo "$readings" | while read -r line; do
        words=$(echo "$line" | sed "s|@|$2|")
        got=0
        # shellcheck disable=SC2086
        eskelvor $words </dev/null >out 2>err || got=$?
        why="$3: $words"
        case $1 in *$got*) ;; *) fail "status $got, not one of $1" ;; esac
        grep -q "$4" err || fail "no message with $4"
        got=0
        # shellcheck disable=SC2086
        eskelvor --json $words </dev/null >out 2>err || got=$?
        case $1 in *$got*) ;; *) fail "with --json status $got, not one of $1" ;; esac
        "$root/target/host/json_flat" <out >flat || fail 'not JSON'
        grep -qx "status=$got" flat || fail 'the status is not in the document'
    done
    cases=$((cases + 28))
    cmp -s b sound || fail 'the board is another'
}
words='' why=''
reads 2 nowhere 'a file that is not there' 'No such file or directory'
[ ! -e .nowhere.eskelvor-lock ] || fail 'a lock for nothing'
reads 2 folder 'a folder' 'Is a directory'
[ ! -e .folder.eskelvor-lock ] || fail 'a lock for nothing'
reads 2 nowhere/at/all 'a folder that is not there' 'No such file or directory'
reads 12 empty 'an empty file' 'empty\|code'
head -c 300000 /dev/urandom >noise
reads 12 noise 'noise' 'refused'
truncate -s 3G huge 2>/dev/null || : >huge
[ ! -s huge ] || for line in 'board huge list' 'apply -c huge' "board huge add XY0001 $none"; do
    # shellcheck disable=SC2086
    answers 1 'a huge file is refused by its first bytes' $line
done
rm -f huge
if [ "$(id -u)" != 0 ]; then
    cp sound secret
    chmod 0 secret
    reads 2 secret 'a file that may not be read' 'Permission denied'
else
    echo 'files: as root every file may be read; that case is passed over'
fi

# Names that are no plain ASCII: UTF-8 letters stay, what a terminal would obey is escaped
odd=$(printf 'a\033[2Jb')
latin=$(printf 'caf\351')
utf=$(printf 'M\303\274nchen-\346\235\261-\360\237\233\251')
c1=$(printf 'c\302\233m')
printf '%s\nAWR04\n' $none | tee "$odd" "$latin" "$utf" >"$c1"
answers 1 'a name with an escape cannot move the cursor' check "$odd"
out_is 'a\x1b[2Jb, line 1: accepted, 22 bytes'
err_has 'eskelvor: a\x1b[2Jb, line 2: refused: code 8'
answers 1 'nor one with a control character in UTF-8' check "$c1"
out_is 'c\xc2\x9bm, line 1: accepted, 22 bytes'
answers 1 'a byte that is no UTF-8 is escaped' check "$latin"
out_is 'caf\xe9, line 1: accepted, 22 bytes'
answers 1 'letters stay' check "$utf"
out_is "$utf, line 1: accepted, 22 bytes"
err_has "eskelvor: $utf, line 2: refused: code 8"
answers 1 'letters stay, for a machine' check --json "$utf"
json_has "results.0.file=$utf" "results.1.file=$utf"
answers 1 'other bytes are escaped, for a machine' check --json "$odd" "$latin" "$c1"
json_has 'results.0.file=a\u001b[2Jb' 'results.2.file=caf\u00e9' 'results.4.file=c\u009bm'
answers 1 'of a text every byte is escaped that is not ASCII' check --json --text "$utf"
json_has 'results.0.text=M\u00c3\u00bcnchen-\u00e6\u009d\u00b1-\u00f0\u009f\u009b\u00a9'
answers 2 'a file that is not there' check "no$odd"
err_has 'eskelvor: noa\x1b[2Jb: cannot open'
answers 2 'a file that is not there, for a machine' check --json "no$utf"
json_has "results.0.about=no$utf" status=2
answers 1 'a file that is no board' board "$odd" list
err_has 'eskelvor: a\x1b[2Jb: refused: code 10'
answers 1 'a designator' board b take "$odd"
err_has 'a\x1b[2Jb: a designator has six letters or digits'
answers 2 'a word that is wrong' board b "$odd"
err_has 'eskelvor: a\x1b[2Jb: no such thing to do with a board'
answers 1 'reports in such a file' report "$odd"
err_has 'eskelvor: a\x1b[2Jb, report 1 from byte 0 on: refused'
rm -f "$odd" "$latin" "$utf" "$c1"

head -c 5000000 /dev/zero >zeros
answers 1 'one line of 5 MB' check zeros
err_has 'code 1 at byte 0: a command has at most 845 bytes, this one 5000000'
answers 1 'five MB that are no reports: told 21 times, not 23,000' report zeros
err_has 'report 21 from byte 4400 on: refused: code 1' 'this one 4995600' 'eskelvor: 0 reports shown, 21 refused'
{ cat zeros "$examples/one.report"; } >then
answers 1 'and a report behind them is found' report then
out_has 'then, report 22 from byte 5000000 on: YMML to YPAD'

# Standard output on a full disk
if [ -c /dev/full ]; then
    for line in '--help' '--version' "report $examples/one.report" "check $none" "explain $none" "join $none" \
        "apply $none" 'decide --phase level --lat 0 --lon 0 --hour 0' 'why --phase level --lat 0 --lon 0 --hour 0' \
        'packed read KK' 'board b list' 'night' 'board b take XY0001' \
        "check --json $none" 'board b take XY0001 --json'; do
        got=0 words=$line why='a full disk behind standard output'
        # shellcheck disable=SC2086
        eskelvor $line >/dev/full 2>err </dev/null || got=$?
        cases=$((cases + 1))
        [ "$got" = 2 ] || fail "status $got, not 2"
        err_has 'eskelvor: standard output: cannot write: No space left on device'
    done
    err_has 'eskelvor: XY0001: not handed out; it still waits'
    cmp -s b sound || fail 'the command is gone from the board'
fi
why='a reader that went away' words='board b take'
(eskelvor board b take XY0001 2>err || true) | :
answers 0 'whatever became of it, the board is sound' board b check
cp sound b

# Standard output closed: the next file that is opened must not get its number
for line in 'board b take XY0001' 'board b take XY0001 --json' "board b add XY0001 $none" "check $none"; do
    for closed in '>&-' '<&- >&-'; do
        got=0 words="$line $closed" why='standard output closed'
        eval "eskelvor $line $closed 2>err" || got=$?
        cases=$((cases + 1))
        [ "$got" = 2 ] || fail "status $got, not 2"
        err_has 'eskelvor: standard output: cannot write: '
        cmp -s b sound || fail 'the board is another'
        [ ! -s .b.eskelvor-lock ] || fail 'something was written into the lock file'
    done
done
got=0 words='board b take <&- >&- 2>&-' why='all three closed'
eskelvor board b take XY0001 <&- >&- 2>&- || got=$?
[ "$got" = 2 ] || fail "status $got, not 2"
cmp -s b sound || fail 'the command is gone from the board'

# A file that may not grow: the limit is in blocks, and below a board's size
limited() { (ulimit -f "$1" && shift && eskelvor "$@"); }
got=0 words='board b add' why='a file that may not grow'
limited 2 board b add XY0002 $none >out 2>err || got=$?
[ "$got" = 2 ] || fail "status $got, not 2"
err_has 'eskelvor: b: cannot write the new file beside it: File too large'
cmp -s b sound || fail 'the board is another'
[ ! -e .b.eskelvor-new ] || fail 'half a file is left'
got=0 words='board b take'
limited 2 board b take XY0001 >out 2>err || got=$?
[ "$got" = 2 ] || fail "status $got, not 2"
[ ! -s out ] || fail 'it was handed out before there was room for the new board'
cmp -s b sound || fail 'the board is another'

# Something fails once the command is handed out: standard output is a pipe without room, and while the program waits for
# some, the new board is taken away.
takes() { # FILE WORD..: takes with these words, what is handed out goes to FILE; the status is in $got
    to=$1
    shift
    mkfifo pipe
    exec 3<>pipe
    dd if=/dev/zero of=pipe bs=4096 oflag=nonblock 2>/dev/null || true
    eskelvor "$@" >pipe 2>err 3>&- &
    taker=$!
    tries=0
    until [ -e .b.eskelvor-new ] || [ $tries = 500 ]; do
        tries=$((tries + 1))
        sleep 0.02
    done
    rm -f .b.eskelvor-new
    cat pipe >handed 3>&- &
    reader=$!
    exec 3>&-
    got=0
    wait $taker || got=$?
    wait $reader
    tr -d '\000' <handed >"$to"
    rm -f pipe handed
    cases=$((cases + 1))
}
why='a board that cannot be put in place' words='board b take XY0001'
takes out board b take XY0001
[ "$got" = 2 ] || fail "status $got, not 2"
out_is $none
err_has 'eskelvor: XY0001: handed out, and may still wait: take it again'
words='board b take XY0001 --json'
takes out board b take XY0001 --json
[ "$got" = 2 ] || fail "status $got, not 2"
json_has results.0.accepted=true results.0.text=$none results.1.about=b results.2.about=XY0001 \
    'results.2.error=handed out, and may still wait: take it again' status=2
cmp -s b sound || fail 'the board is another'
answers 0 'the line of a result is whole before the end of the document' board b take XY0001 --json
json_has results.0.text=$none status=0
[ "$(tail -n 1 out)" = '],"status":0}' ] || fail 'the end is not a line of its own'
cp sound b

# A disk that is full, where one may be made
if [ "$(id -u)" = 0 ] && mkdir disk && mount -t tmpfs -o size=16k eskelvor-test disk 2>/dev/null; then
    answers 0 'a board on a small disk' board disk/b create 8
    answers 0 'with a command' board disk/b add XY0001 $none
    cat /dev/zero >disk/fill 2>/dev/null || true
    cp disk/b sound
    answers 2 'no room for the new board' board disk/b add XY0002 $none
    err_has 'No space left on device'
    answers 2 'nor for the one without the command: it is not handed out' board disk/b take XY0001
    out_is
    cmp -s disk/b sound || fail 'the board is another'
    rm disk/fill
    answers 0 'room again' board disk/b take XY0001
    out_is $none
    umount disk
else
    echo 'files: no small disk can be made here; that case is passed over'
fi

done_with 'files and disks'
