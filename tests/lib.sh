# What the checks share: how a built program is run, and how a case is told and counted.
# shellcheck shell=bash
# The last command of a pipe runs in this shell, so that it can count.
shopt -s lastpipe
passed=0
failed=0

# The programs that a check runs: `rt ci` leaves them, and they are proved and built anew where a file that they are
# made of is newer. Where that fails the check fails, with its counts.
needs() { # NAMES..
    local log
    log=$(tools/build "$@") && return
    printf '%s\n' "$log" | tail -n 20
    echo "FAILED ${0##*/}: $* could not be proved and built"
    echo "0 passed, 1 failed"
    exit 1
}

# Runs a built program. A check sets the seconds that it may take: one that goes on for ever is to fail.
seconds=
program() { # NAME ARGUMENTS..
    ${seconds:+timeout "$seconds"} "./crates/$1/out/$1" "${@:2}"
}

# The bytes of an annotated hex file: pairs of hex digits, `#` to the line's end is a remark.
bytes_of() { # FILE
    # shellcheck disable=SC2059
    printf "$(sed 's/#.*//' "$1" | tr -cd '0-9A-Fa-f' | sed 's/../\\x&/g')"
}

told() { # NAME STATUS
    if [ "$2" -eq 0 ]; then
        passed=$((passed + 1))
        echo "ok $1"
    else
        failed=$((failed + 1))
        echo "FAILED $1"
    fi
}

# Commands that are compared with no original: so many, made by oracle/generate under the script's name, to the program
# drive and to the plain model of oracle/model.py. Both answer alike, and each of these answers comes.
answers_as_model() { # NAME COMMANDS SEED ANSWERS..
    local name=$1 many=$2 seed=$3 work answer
    shift 3
    if ! command -v python3 >/dev/null 2>&1; then
        echo "the commands and the model are Python programs, and there is no python3"
        told "$name: drive answers as the plain model does" 1
        return
    fi
    work=$(mktemp -d)
    oracle/generate "$name" "$seed" "$many" >"$work/commands"
    program drive <"$work/commands" >"$work/drive"
    python3 oracle/model.py <"$work/commands" >"$work/model"
    many=$(wc -l <"$work/commands")
    cmp -s "$work/drive" "$work/model" && [ "$(wc -l <"$work/model")" -eq "$many" ]
    told "$name: drive answers $many commands as the plain model does" $?
    # the first one that is answered otherwise
    paste -d '\n' "$work/commands" "$work/drive" "$work/model" |
        awk 'NR % 3 == 1 { command = $0 } NR % 3 == 2 { drive = $0 } NR % 3 == 0 && drive != $0 { print "    " command "\n    drive: " drive "\n    model: " $0; exit }'
    for answer; do
        grep -qx -- "$answer" "$work/drive"
        told "$name: '$answer' comes" $?
    done
    rm -rf "$work"
}

# A C program over the archive of exported calls: tests/NAME.c and the sources named, built, and run with the arguments.
# It prints lines that begin 'ok ' or 'FAILED ', which are counted; the last line has the counts.
c_program() { # NAME SOURCES ARGUMENTS..
    local name=$1 sources=$2 work=target/$1 status
    shift 2
    # shellcheck disable=SC2086
    c_built "$name" "tests/$name.c" $sources || return 1
    ${emulator:+"$emulator"} "$work/$name" "$@" >"$work/lines"
    status=$?
    cat "$work/lines"
    passed=$(grep -c '^ok ' "$work/lines")
    failed=$(grep -c '^FAILED ' "$work/lines")
    if [ "$status" -ne 0 ] && [ "$failed" -eq 0 ]; then
        told "$name: the program stopped with $status" 1
    fi
    echo "$passed passed, $failed failed"
    [ "$failed" -eq 0 ] && [ "$passed" -gt 0 ]
}

# Builds target/NAME/NAME of C sources and the archive of exported calls; `emulator` then says what has to run it, where
# something has to. What the sources compile to is kept for sources and headers of the same contents, so that another
# archive is only linked. Installs the Debian packages that it needs (as root); where they can't be had it says so and
# fails, with the counts in the last line.
c_built() { # NAME SOURCES..
    local name=$1 work=target/$1 objects source
    shift
    archive_built "$name" || return 1
    objects=$work/$(cat "$@" include/*.h bench/calls.h tests/*.h | cksum | tr -d ' ')
    if [ ! -f "$objects/all" ]; then
        mkdir -p "$objects"
        for source; do
            "$cross-gcc" -O2 -std=gnu11 -Wall -Wextra -Werror -Iinclude -c "$source" -o "$objects/$(basename "$source" .c).o" >"$work/gcc.log" 2>&1 ||
                lacking "the program could not be built; $work/gcc.log says why" || return 1
        done
        touch "$objects/all"
    fi
    "$cross-gcc" -static "$objects"/*.o "$archive" -o "$work/$name" >"$work/gcc.log" 2>&1 ||
        lacking "the program could not be built; $work/gcc.log says why"
}

# The archive of exported calls, proved and built anew where a file that it is made of is newer than it, and what builds
# and takes apart programs for x86-64.
archive=crates/ashlar/out/libashlar.a
archive_built() { # NAME
    local name=$1 work=target/$1
    # what bench/need calls where a package can't be had
    fail() {
        lacking "$*"
        exit 1
    }
    # shellcheck source=bench/need
    . bench/need
    emulator=
    [ "$(uname -m)" = x86_64 ] || emulator=qemu-x86_64
    # shellcheck disable=SC2086
    need $cross_compiler $cross_library ${emulator:+qemu-user}
    mkdir -p "$work" || return 1
    tools/build ashlar >"$work/rt.log" || lacking "the archive could not be proved and built; $work/rt.log says why"
}

lacking() { # WHY
    echo "FAILED $name: $1"
    echo "0 passed, 1 failed"
    return 1
}
