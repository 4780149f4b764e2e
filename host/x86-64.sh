# To be sourced, in the top folder or above it. What Rattle compiles is for x86-64: proves and builds it where that was not done, links C
# programs with it, and runs them over the kit's own C library.
command -v rt >/dev/null || { echo "rt, the command of the Rattle kit, is not in PATH" >&2; exit 2; }
kit=${RATTLE_HOME:-$(dirname "$(dirname "$(readlink -f "$(command -v rt)")")")}
tools=$kit/toolchain

# The words before a program that run it over the kit's C library.
on_x86_64=("$tools/lib/ld-linux-x86-64.so.2" --library-path "$tools/lib")

# link_x86_64 PROGRAM SOURCE.c LIBRARY.a..: compiles a C program and links it with static libraries of Rattle's and the kit's C library.
link_x86_64() {
    local program=$1 source=$2 lib=$tools/lib
    shift 2
    "$tools/bin/clang" --target=x86_64-unknown-linux-gnu -O2 -fPIE -Wall -Wextra -Werror -Iinclude \
        -isystem "$(gcc -print-file-name=include)" -isystem "/usr/include/$(gcc -dumpmachine)" -isystem /usr/include \
        -c "$source" -o "$program.o" &&
        "$tools/bin/ld.lld" -pie --dynamic-linker /lib64/ld-linux-x86-64.so.2 -o "$program" \
            "$lib/Scrt1.o" "$lib/crti.o" "$lib/crtbeginS.o" "$program.o" "$@" \
            "$lib/libc.so.6" "$lib/libc_nonshared.a" "$lib/libgcc.a" "$lib/crtendS.o" "$lib/crtn.o"
}

# needed_by CRATE..: these crates and all of crates.txt that they rest on, one to a line.
needed_by() {
    awk -v wanted="$*" '
        { sub(/#.*/, ""); sub(/:/, " ") }
        NF { listed[$1] = 1; for (i = 2; i <= NF; i++) needs[$1] = needs[$1] " " $i }
        function need(crate, more, i, count) {
            if (seen[crate]++ || !(crate in listed)) return
            print crate
            count = split(needs[crate], more, " ")
            for (i = 1; i <= count; i++) need(more[i])
        }
        END { count = split(wanted, crates, " "); for (k = 1; k <= count; k++) need(crates[k]) }' crates.txt
}

# named_by CRATE: what its line of crates.txt names, one to a line: crates of this folder and libraries of the kit.
named_by() { awk -v crate="$1" '{ sub(/#.*/, ""); kind = sub(/:/, " ") } kind && $1 == crate { for (i = 2; i <= NF; i++) if ($i != "staticlib") print $i }' crates.txt; }

# show_progress PROCESS LOG COUNT: says on standard error how many of at most COUNT crates the log has as proved, while the process runs: on a
# line that is rewritten on a terminal, on a line a minute elsewhere.
show_progress() {
    local seconds=0 line
    while kill -0 "$1" 2>/dev/null; do
        if [ -t 2 ] || [ $((seconds % 60)) -eq 59 ]; then
            line="$(grep -c '^logic=proved' "$2" || true) of at most $3 crates proved"
            if [ -t 2 ]; then printf '\r%s' "$line" >&2; else echo "$line" >&2; fi
        fi
        sleep 1
        seconds=$((seconds + 1))
    done
    [ ! -t 2 ] || printf '\r\033[K' >&2
}

# What every proof rests on, the kit and the sources, as one sum.
sum_of_sources() {
    { { cat "$kit/KIT-ID" 2>/dev/null || rt version; } &&
        find crates crates.txt -path 'crates/*/out' -prune -o -type f -print0 | sort -z | xargs -0 sha256sum; } | sha256sum
}

# is_made FILE SUM: whether the file was made of the sources of that sum.
is_made() { [ -f "$1" ] && [ "$(cat "$1.sources" 2>/dev/null)" = "$2" ]; }

# crate_of FILE: the crate of which target/bin/NAME or target/staticlib/libNAME.a is made: NAME, or NAME_c where that has the library's C names.
crate_of() {
    local name
    name=$(basename "$1" .a)
    case $1 in
    *.a)
        name=${name#lib}
        [ ! -d "crates/${name}_c" ] || name+=_c
        ;;
    esac
    echo "$name"
}

# built_by_rt FILE CRATE: makes the file by the kit's command, which proves the crate and all that it rests on first. A program is also run then, on
# its own sample.
built_by_rt() {
    local log=target/proving.log process needed
    needed=$(needed_by "$2" | wc -l)
    : >"$log"
    case $1 in
    *.a) (cd "crates/$2" && exec rt lib) </dev/null >"$log" 2>&1 & ;;
    *) (cd "crates/$2" && exec rt run) <"crates/$2/stdin" 2>"$log" >/dev/null & ;;
    esac
    process=$!
    show_progress "$process" "$log" "$needed"
    case $1 in
    *.a) wait "$process" && cp "crates/$2/out/lib$2.a" "$1" ;;
    *) wait "$process"; grep -q "^rt: running out/$2;" "$log" && cp "crates/$2/out/$2" "$1" ;;
    esac || { cat "$log" >&2; return 1; }
}

# note_gate: notes that the gate proved these very sources here.
note_gate() { mkdir -p target && sum_of_sources >target/gate.sources; }

# built_by_gate FILE CRATE SUM: makes the file of what the gate proved here of the sources of that sum, if it did and that still stands: the program
# that it ran, or the static library over the libraries that it built, of which this proves that one crate again.
built_by_gate() {
    local crate needed words
    [ "$(cat target/gate.sources 2>/dev/null)" = "$3" ] || return
    case $1 in
    *.a)
        mapfile -t needed < <(needed_by "$2" | grep -vx "$2")
        words=(--crate-name "$2" src/lib.rt -L "dependency=$kit/rlibs" --extern "core=$kit/rlibs/core.rlib" --extern "std=$kit/rlibs/std.rlib")
        for crate in "${needed[@]}"; do
            # A stamp is of a library that another command built since.
            [ -f "crates/$crate/out/rlib/$crate.rlib/format" ] && [ ! -e "crates/$crate/out/rlib/stamp" ] || return
            words+=(-L "dependency=../$crate/out/rlib")
        done
        for crate in $(named_by "$2"); do
            if [ -d "crates/$crate" ]; then words+=(--extern "$crate=../$crate/out/rlib/$crate.rlib"); else words+=(--extern "$crate=$kit/rlibs/$crate.rlib"); fi
        done
        words+=(--antt-project "$kit/rattle/logic/antt-project.json" --logic-built "$kit/logic_built" --links "$2=" --jobs 1)
        words+=(--crate-type staticlib --toolchain "$kit/toolchain" --backend llvm -o "../../$1")
        (cd "crates/$2" && "$kit/bin/rattle" build "${words[@]}") </dev/null >"$1.log" 2>&1
        ;;
    *) [ ! -e "crates/$2/out/$2.stamp" ] && cp "crates/$2/out/$2" "$1" 2>/dev/null ;;
    esac
}

# make_proved FILE..: proves and builds target/bin/CRATE, a program, or target/staticlib/libCRATE.a, a static library, where that was not done
# for these very sources; one at a time in a folder. Says first that it does, and why.
make_proved() {
    local file crate sum wanted=() crates=() made=() why="that was not done here yet" lock k
    mkdir -p target/bin target/staticlib
    sum=$(sum_of_sources) || return
    exec {lock}>target/proving.lock
    flock --nonblock "$lock" || { echo "waiting for another that proves and builds here" >&2; flock "$lock"; }
    for file; do
        is_made "$file" "$sum" && continue
        wanted+=("$file")
        crates+=("$(crate_of "$file")")
        [ ! -f "$file.sources" ] || why="the sources changed"
    done
    if [ ${#wanted[@]} -gt 0 ]; then
        echo "proving and building ${crates[*]} first, because $why: $(needed_by "${crates[@]}" | wc -l) crates, some minutes" >&2
        for k in "${!wanted[@]}"; do
            built_by_gate "${wanted[k]}" "${crates[k]}" "$sum" &
            made+=($!)
        done
        for k in "${!wanted[@]}"; do
            wait "${made[k]}" || built_by_rt "${wanted[k]}" "${crates[k]}" || return
            echo "$sum" >"${wanted[k]}.sources"
        done
    fi
    exec {lock}>&-
}

# programs CRATE.., static_libraries CRATE..: target/bin/CRATE and target/staticlib/libCRATE.a, made of these very sources.
programs() { make_proved "${@/#/target/bin/}"; }
static_libraries() {
    local libraries=("${@/#/target/staticlib/lib}")
    make_proved "${libraries[@]/%/.a}"
}
