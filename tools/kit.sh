# Sourced by the other tools, which are bash, stand in the repository's root and have their own name in `tool`: the Rattle kit at hand,
# a workplace that goes when the tool ends, commands that end with it, proofs with a line for each crate, and modules compiled as they are wanted here.
set -u

group=
work=
room=
say() { echo "$tool: $*" >&2; }
fail() {
    say "$*"
    exit 1
}

# The kit's folders. Where it is not the kit that is pinned, that is told, by the first of tools that call one another.
kit() {
    command -v rt >/dev/null || fail "the Rattle kit's rt is not on the path"
    [ -n "${BARLEYHOOD_KIT_TOLD-}" ] || tools/pinned
    export BARLEYHOOD_KIT_TOLD=1
    home=$(dirname "$(rt doc)")
    kit_tools=$home/toolchain
}

# A folder for this tool alone, in the folder named.
workplace() {
    mkdir -p "$1" && work=$(mktemp -d "$1/work.XXXXXX") || fail "no folder can be made in $1"
    work=$(cd "$work" && pwd)
}

# Ends all that was started and removes what was begun. What rt starts has a group of its own, and ends when rt has.
started_by() { # PID
    local p
    for p in $(pgrep -P "$1"); do echo "$p" "$(started_by "$p")"; done
}
leave() {
    local all k
    if [ -n "$group" ]; then
        all=$(started_by "$group")
        kill -TERM -- "-$group"
        wait "$group"
        for ((k = 0; k < 100; k++)); do
            # shellcheck disable=SC2086
            kill -0 -- "-$group" $all || break
            sleep 0.05
        done
    fi 2>/dev/null
    rm -rf ${work:+"$work"} ${room:+"$room"}
}
ended_by() { # SIGNAL
    trap '' INT TERM HUP
    trap - EXIT
    leave
    trap - "$1"
    kill -s "$1" $$
}
trap leave EXIT
for signal in INT TERM HUP; do
    # shellcheck disable=SC2064
    trap "ended_by $signal" "$signal"
done

# Runs a command in a process group of its own: what it starts in turn may be deaf to Ctrl-C, and ends with the group.
grouped() {
    local status=0
    set -m
    "$@" </dev/null &
    group=$!
    set +m
    wait "$group" || status=$?
    group=
    return "$status"
}

# Whether a file is there and none of the sources named is newer.
is_fresh() { # FILE SOURCE..
    local file=$1
    shift
    [ -e "$file" ] && [ -z "$(find "$@" -newer "$file" -print -quit)" ]
}

# The libraries that a crate names in crates.txt; those that a library of the kit names; all that crates reach, themselves included, and once the kit
# is known its libraries too.
named_by() { sed -nE "s/#.*//; s/^$1( +staticlib)?: *//p" crates.txt; }
used_by() { # NAME
    if [ -d "crates/$1" ]; then echo core std $(named_by "$1"); else echo $(sed -n 's/^dep //p' "$home/rlibs/$1.rlib/format"); fi
}
reached() { # NAME..
    local found=" " todo="$*" next d
    while [ -n "${todo// /}" ]; do
        next=
        for d in $todo; do
            case $found in *" $d "*) continue ;; esac
            found="$found$d "
            if [ -d "crates/$d" ] || [ -n "${home-}" ]; then next="$next $(used_by "$d")"; fi
        done
        todo=$next
    done
    echo "$found"
}

# The crates of the repository that crates are made of, themselves included, in the order of crates.txt, which is from the lowest on.
made_of() { # NAME..
    local d found
    found=$(reached "$@")
    for d in $(sed -nE 's/#.*//; s/^(\w+)( +staticlib)?:.*/\1/p' crates.txt); do
        case $found in *" $d "*) echo "$d" ;; esac
    done
}

# What a crate is made from: its sources, specs and proofs, and those of the crates below it.
sources_of() { # NAME
    local d part
    echo crates.txt
    for d in $(made_of "$1"); do
        for part in src specs proofs; do [ ! -d "crates/$d/$part" ] || echo "crates/$d/$part"; done
    done
}

is_static() { grep -qE "^$1 +staticlib" crates.txt; }
is_library() { [ -f "crates/$1/src/lib.rt" ] && ! is_static "$1"; }

# Whether a crate is proved as it stands: what only a proof makes, or the mark of one, is newer than all that it is made from.
is_proved() { # NAME
    local made rlib=crates/$1/out/rlib/$1.rlib
    if is_library "$1" && [ ! -d "$rlib" ]; then return 1; fi
    for made in "$rlib" "crates/$1/out/$1" "target/proved/$1"; do
        # shellcheck disable=SC2046
        is_fresh "$made" $(sources_of "$1") && return
    done
    return 1
}

# Proves crates and all that they are made of, from the lowest on, one such run at a time in this repository. A line on standard output for each crate
# that is proved in this run, as it is done; one that was proved before and has not changed is only counted. target/log/CRATE has what rt says of it.
proved() { # NAME..
    local all d began left status=0
    all=$(made_of "$@")
    left=$(wc -w <<<"$all")
    mkdir -p target/log target/proved && exec 8>target/lock && room=$(mktemp -d) || fail "no room to prove in"
    if ! flock -n 8; then
        say "another run proves here; this one waits for it"
        grouped flock 8
    fi
    for d in $all; do
        left=$((left - 1))
        if is_proved "$d"; then continue; fi
        began=$SECONDS
        touch "$room/began"
        grouped in_crate "$d" >"target/log/$d" 2>&1 8>&- || status=$?
        if [ "$status" -ne 0 ]; then
            say "$d is not proved"
            grep -E 'error|not proved|no proof' "target/log/$d" | head -n 12 >&2
            break
        fi
        touch -r "$room/began" "target/proved/$d"
        echo "$tool: $d proved in $((SECONDS - began)) s, $left left"
    done
    exec 8>&-
    rm -rf "$room"
    room=
    return "$status"
}
in_crate() { # NAME
    local words
    # A library is built as well, for the crates above it.
    if is_library "$1"; then cd "crates/$1" && TMPDIR=$room exec rt lib; fi
    mapfile -t words < <(words_of "$1")
    TMPDIR=$room exec "$home/bin/rattle" check "${words[@]}"
}

# How a program or a static library is handed to the prover, over the libraries below it as they are built: a word a line. rt would build those that
# `rt ci` built again, from nothing.
words_of() { # NAME
    local d root=crates/$1/src/main.rt
    if is_static "$1"; then root=crates/$1/src/lib.rt && printf '%s\n' --crate-type staticlib; fi
    printf '%s\n' --crate-name "$1" "$root" --jobs 2 --extern "std=$home/rlibs/std.rlib" -L "dependency=$home/rlibs" \
        --antt-project "$home/rattle/logic/antt-project.json" --logic-built "$home/logic_built"
    for d in $(named_by "$1"); do
        if [ -d "crates/$d" ]; then printf '%s\n' --extern "$d=crates/$d/out/rlib/$d.rlib"; else printf '%s\n' --extern "$d=$home/rlibs/$d.rlib"; fi
    done
    for d in $(made_of "$1"); do
        if is_library "$d"; then printf '%s\n' -L "dependency=crates/$d/out/rlib"; fi
    done
}

# A toolchain in a folder `room` whose clang compiles a module as it is wanted here: some functions always in their callers, and for any processor of x86-64
# or, with -march=native, for this one. It leaves the object to the kit, or puts a program's at the path given and then fails, which ends the kit's try.
# The folder has links, which rt refuses anywhere in the repository.
compiling() { # [OPTION [OBJECT]]
    local t
    room=$(mktemp -d) && mkdir "$room/bin" && ln -s "$kit_tools/lib" "$room/lib" || fail "no folder for temporary files can be made"
    for t in "$kit_tools"/bin/*; do ln -s "$t" "$room/bin/"; done
    rm "$room/bin/clang"
    cat >"$room/bin/clang" <<END
#!/usr/bin/env bash
# The module that is compiled is module.bc in the folder at hand: proved code at -O3, or code to be tried, with the checks of memory that are left out here.
case " \$* " in
*" module.bc "*" -O3 "* | *" module.bc "*" -fsanitize=address "*) ;;
*) exec "$kit_tools/bin/clang" "\$@" ;;
esac
"$kit_tools/bin/clang" -S -emit-llvm -Xclang -disable-llvm-passes -x ir module.bc -o named.ll || exit
sed -E 's/ "target-cpu"="[^"]*"//; s/^(attributes .*) sanitize_address/\1/; s/^(define internal .*@"($inlined)"\(.*\)) #/\1 alwaysinline #/' named.ll >bare.ll || exit
words=()
for w; do
    case \$w in
    module.bc) words+=(bare.ll) ;;
    module.o) words+=("${2:-module.o}") ;;
    -O0) words+=(-O3) ;;
    -fsanitize=address) ;;
    -march=*) words+=("${1:-\$w}") ;;
    *) words+=("\$w") ;;
    esac
done
"$kit_tools/bin/clang" "\${words[@]}" ${2:+&& touch "$2.made"; exit 1}
END
    chmod +x "$room/bin/clang"
}

# A program's object as an executable.
linked() { # OBJECT FILE
    grouped "$home/bin/rattle-link" --target x86_64-unknown-linux-gnu --toolchain "$kit_tools" -o "$2" "$1" "$home/c/libos_c.a" "$home/c/liblibc_c.a" >"$work/log" 2>&1 && return
    tail -n 5 "$work/log" >&2
    return 1
}

# Functions that are compiled into their callers, whatever their size: those that read or write one field, record or line, try one
# line or tell one cost.
inlined='(read_fields|read_lines|line_rules|ranges|curve|moves|write_fields|write_amounts|print_lines|write_records|read_records)::[a-z_]*|print_file::(put_[a-z]*|line_length)|deck::[a-z]*_at|record::[a-z]*_stands|record::shape::[a-z_]*'
