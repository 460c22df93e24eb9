# shellcheck shell=bash
# What the host tests share. A test stands in tests/host, is listed in tests/hosts.txt, runs in the
# repository's root, begins with '. tests/lib.sh' and ends with 'finish'. It may use:
#   ok NAME, not_ok NAME    count one check
#   finish                  prints 'N passed, M failed' and ends the test
#   $room                   a folder of its own, removed when it ends
#   step NAME COMMAND..     a command that is to end well; where it does not, the test ends
#   make_alone WORDS..      make, for what tests share in build/: no other test does so then
#   is_recorded             whether what rt ci made of the crates still stands in their out/ (build/proved)
#   have_program NAME       sees that crates/NAME/out/NAME is the proved program: rt ci's, or else rt run's
#   have_libraries CRATE..  sees that these libraries, and those below them, stand in their out/: rt ci's, or else rt lib's
#   rattle_over 'LIBRARIES' VERB WORDS..  the kit's rattle on the crate in this folder, over libraries of this repository
#   target_cc WORDS..       the C compiler that makes x86-64 programs; target_cxx: the one for C++;
#                           target_nm: the one that lists names
#   strict_c                words for it: C99 without a warning
#   run_x86 PROGRAM WORDS.. runs one that target_cc made
#   is_emulated             whether such programs only run in an emulator here
#   $compiler, $library, $runner  the C compiler, the library and the runner of what follows: target_cc, the archive
#                           and run_x86, until use_native
#   use_native WORDS..      from there on: cc, the archive's module compiled for this processor, and no emulator
#   run_checks COUNT PROGRAM WORDS..  runs one that prints a line 'ok NAME' or 'not ok NAME' a check, COUNT of
#                           them; lines that begin with # are for the reader
#   planted FUNCTION OLD NEW  prints the second program with a bug in it
#   agrees COMMAND..        runs a comparison that is too short to come to every refusal and every clause
#   build_compare PROGRAM WORDS..  makes the comparison of the library with the second program
# make run and make lib use its
#   prove_first CRATE COMMAND..  runs a command that proves the crate and those below it, and says how it gets on
# and the gate, where rt ci passed,
#   record_proved           writes down what was proved and what rt ci made of it

passed=0 failed=0
repository=$PWD
room=$(mktemp -d) || exit 2
trap 'rm -rf "$room"' EXIT

ok() {
    printf 'ok %s\n' "$*"
    passed=$((passed + 1))
}

not_ok() {
    printf 'not ok %s\n' "$*"
    failed=$((failed + 1))
}

finish() {
    printf '%s passed, %s failed\n' "$passed" "$failed"
    [ "$failed" -eq 0 ]
    exit
}

# There is nothing to test where a step does not end well.
step() { # NAME COMMAND..
    local name=$1
    shift
    if "$@" >"$room/said" 2>&1; then
        ok "$name"
    else
        not_ok "$name (exit status $?):"
        cat "$room/said"
        finish
    fi
}

# Tests run side by side, and make may not run twice at once in one folder. (Of rt a second one waits by itself.)
make_alone() { flock Makefile make --no-print-directory "$@"; }

# shellcheck disable=SC2034 # for the tests
strict_c=(-std=c99 -O2 -Wall -Wextra -Werror -pedantic)

# Rattle's code is for x86-64. On Arm another compiler makes such programs, and an emulator, which has no C
# library to load, runs them: so they are linked with theirs.
target_cc() {
    case $(uname -m) in
    x86_64) cc "$@" ;;
    aarch64) x86_64-linux-gnu-gcc -static "$@" ;;
    *) echo "no x86-64 compiler is known for $(uname -m)" >&2; return 1 ;;
    esac
}

# The mathematics library of Debian's cross packages names parts of itself by paths that are not there, so on Arm
# the libraries are named one by one, without it.
target_cxx() {
    case $(uname -m) in
    x86_64) g++ "$@" ;;
    aarch64) x86_64-linux-gnu-g++ -static -nodefaultlibs "$@" -Wl,--start-group -lstdc++ -lc -lgcc -lgcc_eh -Wl,--end-group ;;
    *) echo "no x86-64 compiler is known for $(uname -m)" >&2; return 1 ;;
    esac
}

target_nm() {
    case $(uname -m) in
    x86_64) nm "$@" ;;
    aarch64) x86_64-linux-gnu-nm "$@" ;;
    *) echo "no x86-64 tools are known for $(uname -m)" >&2; return 1 ;;
    esac
}

# Prints the kit's folder, found as rt finds it.
kit_home() { printf '%s\n' "${RATTLE_HOME:-$(dirname "$(dirname "$(readlink -f "$(command -v rt)")")")}"; }

# Prints the folder with the kit's compiler and linker.
kit_bin() { printf '%s\n' "$(kit_home)/toolchain/bin"; }

run_x86() {
    case $(uname -m) in
    x86_64)
        case ${AS_IF_EMULATED:-1} in
        1) "$@" ;;
        *) "$AS_IF_EMULATED" "$@" ;;
        esac
        ;;
    aarch64) qemu-x86_64 "$@" ;;
    *) echo "no x86-64 emulator is known for $(uname -m)" >&2; return 1 ;;
    esac
}

# AS_IF_EMULATED=1 says so on x86-64 too, to try there what is done then; the name of an emulator in place of 1: and such programs run
# in it, so that it takes about as long.
is_emulated() { [ "$(uname -m)" != x86_64 ] || [ -n "${AS_IF_EMULATED:-}" ]; }

compiler=target_cc library=build/libulavrepit.a runner=run_x86
run_native() { "$@"; }
use_native() { # WORDS OF make..
    compiler=cc library=${library%/*}/native/libulavrepit.a runner=run_native
    make_alone native "$@"
}

# Runs a program that rt linked: it loads a C library, on Arm the kit's.
run_proved() { # PROGRAM WORDS..
    local kit
    case $(uname -m) in
    aarch64)
        kit=$(kit_home)/toolchain
        run_x86 "$kit/lib/ld-linux-x86-64.so.2" --library-path "$kit/lib" "$@"
        ;;
    *) run_x86 "$@" ;;
    esac
}

# Counts what the program says. One that died, or left checks out, may have printed no 'not ok'.
run_checks() { # COUNT PROGRAM WORDS..
    local count=$1 status lines line name
    shift
    "$runner" "$@" >"$room/lines"
    status=$? lines=$(grep -vc '^#' "$room/lines")
    while IFS= read -r line; do
        case $line in
        '#'*) printf '%s\n' "$line" ;;
        'ok '*) ok "${line#ok }" ;;
        *) not_ok "${line#not ok }" ;;
        esac
    done <"$room/lines"
    name="$(basename "$1") ends by itself after $count checks"
    if [ "$status" -eq 0 ] && [ "$lines" -eq "$count" ]; then
        ok "$name"
    else
        not_ok "$name (exit status $status, $lines checks)"
    fi
}

# Nothing differs, and no table is wrongly taken. What a short run need not come to is not asked.
agrees() { # COMMAND..
    if ! "$@" >"$room/out" 2>&1 ||
        ! grep -q '^ok the library and the second program answer the same' "$room/out" ||
        grep -qE '^not ok (no table|every odd)' "$room/out"; then
        cat "$room/out"
        return 1
    fi
}

build_compare() { # PROGRAM WORDS..
    "$compiler" "${strict_c[@]}" -Ibuild -Isecond "${@:2}" -o "$1" \
        tests/c/{compare,damage,most_runs,steer}.c second/kernel.c "$library"
}

# Prints the second program, or the text in 'original', with a text in one of its functions replaced. It is to stand there once.
planted() { # FUNCTION OLD NEW
    local whole=${original:-$(<second/kernel.c)} before body without
    before=${whole%%"$1"*}
    body=${whole:${#before}}
    body=${body%%$'\n}'*}
    without=${body//"$2"/}
    [ $((${#body} - ${#without})) -eq ${#2} ] || return 1
    printf '%s%s%s\n' "$before" "${body/"$2"/"$3"}" "${whole:$((${#before} + ${#body}))}"
}

# ---- what is proved

# Prints the sums of all that crates are proved and made of, and of the libraries and programs that stand in their out/. (The file
# 'format' of a library has the sums of its other files.)
made_of() {
    {
        find crates.txt HANDLES "$(kit_home)/KIT-ID" -maxdepth 0 -type f
        find crates -mindepth 2 \( -path 'crates/*/out' -o -path 'crates/*/must-fail' \) -prune -o -type f -print
        find crates -mindepth 5 -maxdepth 5 -path 'crates/*/out/rlib/*.rlib/format'
        find crates -mindepth 3 -maxdepth 3 -path 'crates/*/out/*' -type f -perm -100
    } 2>/dev/null | sort | tr '\n' '\0' | xargs -0 sha256sum
}

# rt ci proves from nothing, and leaves in out/ the libraries that the proofs stood on and the programs that it ran. Where none of the
# libraries is one that another command of rt had made before, and which rt ci put back (such a one has a stamp), all fit one another.
proved=${PROVED:-build/proved}
record_proved() {
    [ -z "$(find crates -mindepth 4 -maxdepth 4 -path 'crates/*/out/rlib/stamp')" ] || return 0
    mkdir -p "$(dirname "$proved")" && made_of >"$proved.new" && mv "$proved.new" "$proved"
}
is_recorded() { [ -f "$proved" ] && made_of | cmp -s - "$proved"; }

# Prints the crates of this repository that a crate stands on, itself last.
crates_below() { # CRATE
    awk -v top="$1" '
        { sub(/#.*/, "") }
        /:/ { split($0, part, ":"); split(part[1], word, " "); order[++n] = word[1]; uses[word[1]] = part[2] }
        function visit(crate,    list, count, i) {
            if (!(crate in uses) || seen[crate]++) return
            count = split(uses[crate], list, /[ \t,]+/)
            for (i = 1; i <= count; i++) visit(list[i])
            print crate
        }
        END { visit(top) }' crates.txt
}

# rt run proves a program, compiles and runs it.
have_program() { # NAME
    is_recorded || (cd "crates/$1" && rt run </dev/null 2>&1 >/dev/null)
}

have_libraries() { # CRATE..
    local crate
    is_recorded || for crate; do (cd "crates/$crate" && rt lib) || return; done
}

# As rt calls rattle for the crate in this folder. WORDS end with the crate's root file.
rattle_over() { # 'LIBRARIES' VERB WORDS..
    local kit library words=()
    kit=$(kit_home)
    for library in std $1; do
        if [ -d "$repository/crates/$library" ]; then
            words+=(--extern "$library=$repository/crates/$library/out/rlib/$library.rlib")
        else
            words+=(--extern "$library=$kit/rlibs/$library.rlib")
        fi
    done
    for library in "$repository"/crates/*/out/rlib; do words+=(-L "dependency=$library"); done
    "$kit/bin/rattle" "$2" "${words[@]}" -L "dependency=$kit/rlibs" --antt-project "$kit/rattle/logic/antt-project.json" \
        --logic-built "$kit/logic_built" --jobs 2 "${@:3}"
}

# Proving takes minutes, and a reader should know what is waited for. Says on stderr at once that something is to be proved, and the name
# of each crate as it is proved; nothing where nothing has to be. All that rt said is shown where it failed. It waits its turn.
# shellcheck disable=SC2094 # the file is there to be locked, and is read
prove_first() { # CRATE COMMAND..
    local name line new='' told='' proving=''
    flock 9
    if ! is_recorded; then
        for name in $(crates_below "$1"); do
            if ! compgen -G "crates/$name/out/rlib/stamp" >/dev/null && ! compgen -G "crates/$name/out/*.stamp" >/dev/null &&
                [ ! -f "crates/$name/out/lib$name.a" ]; then new+=" $name"; fi
        done
    fi
    tell() { # TEXT
        [ -n "$told" ] || printf '%s\n' "$1" >&2
        told=1
    }
    [ -z "$new" ] || tell "to be proved first:$new. All together that takes minutes, once; a line for each:"
    : >"$room/said"
    rm -f "$room/proved"
    while :; do
        if IFS= read -r -t "${PATIENCE:-3}" line; then
            printf '%s\n' "$line" >>"$room/said"
            if [[ $line =~ ^rt:\ chose\ --jobs\ [0-9]+\ for\ ([a-z_0-9]+)$ ]]; then proving=${BASH_REMATCH[1]}; fi
            if [[ $line != 'logic=proved '* ]] || [ -z "$proving" ]; then continue; fi
        elif [ $? -le 128 ]; then
            break
        else
            line=''
        fi
        # a crate was proved, or nothing was said for some seconds (PATIENCE), so that one is being proved
        tell 'what is not proved as it stands is proved first; a line for each crate:'
        [ -z "$line" ] || printf '%s is proved\n' "$proving" >&2
        [ -z "$line" ] || proving=''
    done < <("${@:2}" 2>&1 && touch "$room/proved")
    [ -f "$room/proved" ] || { cat "$room/said" >&2; return 1; }
} 9<crates.txt
