# Sourced by the tools that build. `prove_program` has rt prove and build a program, and `prove_library` the panel's library. They say on the
# standard error which crate is being proved and how many are left after it; what takes less than a second is done in silence.
# target/TOOL/build.log has all that rt printed. Where something is not built, the tool ends with status 2. `tool` names the tool in what is
# said, `root` is the folder of the repository.

# Exported for other uses: where else cd looks, and what changes the emulator.
unset CDPATH "${!QEMU_@}"

if [ "$(uname -m)" != x86_64 ]; then
    echo "$tool: the Rattle kit and what it builds are for x86-64, which this machine is not" >&2
    exit 2
fi
if ! command -v rt >/dev/null; then
    echo "$tool: there is no rt: install the Rattle kit and put its bin/ on the PATH" >&2
    exit 2
fi
toolchain=$(dirname "$(dirname "$(readlink -f "$(command -v rt)")")")/toolchain

# What rt proves for a crate, in its order, a line each: what it rests on, and then itself.
plan() { # NAME
    awk -v wanted="$1" '
        function visit(name,    needed, count, i) {
            if (name in seen || !(name in needs)) return
            seen[name] = 1
            count = split(needs[name], needed, " ")
            for (i = 1; i <= count; i++) visit(needed[i])
            print name
        }
        { sub(/#.*/, "") }
        split($0, part, ":") == 2 { split(part[1], word, " "); needs[word[1]] = part[2] }
        END { visit(wanted) }
    ' "$root/crates.txt"
}

# Reads what rt prints while it proves a crate. Once a second has passed without a line it says what rt is at: the first crate of the plan that is
# still to come. Where rt names a crate, those before it stand; until it names one, it sees which stand. On a terminal the line is written over.
follow() { # NAME
    local -a todo
    local line part='' named='' text said='' began=$SECONDS
    local names='^(rt: chose --jobs [0-9]+ for|crate) ([^ :]+)(: modules .*)?$'
    mapfile -t todo < <(plan "$1")
    while :; do
        if IFS= read -r -t 1 line; then
            line=$part$line part=''
            if [[ $line =~ $names ]] && [[ " ${todo[*]} " == *" ${BASH_REMATCH[2]} "* ]]; then
                named=${BASH_REMATCH[2]}
                while [ "${todo[0]}" != "$named" ]; do todo=("${todo[@]:1}"); done
            elif [[ $line == logic=proved* && ${todo[0]-} == "$named" ]]; then
                todo=("${todo[@]:1}")
            fi
            continue
        elif [ $? -le 128 ]; then
            break
        fi
        part+=$line
        [ ${#todo[@]} -gt 0 ] || continue
        text="$tool: seeing what is to be proved"
        [ -z "$named" ] || text="$tool: proving ${todo[0]}; $((${#todo[@]} - 1)) left"
        if [ -t 2 ]; then
            printf '\r%-78s' "$text ($((SECONDS - began)) s)" >&2
        elif [ "$text" != "$said" ]; then
            echo "$text" >&2
        fi
        said=$text
    done
    if [ -n "$said" ] && [ -t 2 ]; then printf '\r%78s\r' '' >&2; fi
}

# Runs what builds a crate, when no other tool is building: rt would wait for it, and say nothing of what is proved meanwhile.
build() { # NAME COMMAND...
    local name=$1 log=$root/target/$tool/build.log failed
    shift
    mkdir -p "$root/target/$tool" || exit 2
    {
        flock -w 5 9 || { echo "$tool: waiting for another tool that is building" >&2; flock 9; }
        (cd "$root" && "$@") 2>&1 </dev/null 9>&- | tee "$log" | follow "$name" && return
    } 9>"$root/target/lock"
    failed=$(awk '
        /^rt: chose --jobs [0-9]+ for / { name = $NF }
        /^crate [^ ]+: modules / { name = $2; sub(/:$/, "", name) }
        /^logic=proved/ { name = "" }
        /^logic=not-proved/ { exit }
        END { if (name != "") print name " is not proved" }
    ' "$log")
    echo "$tool: not built: ${failed:-rt failed}. The whole log is $log; there it says:" >&2
    # The last lines up to the first crate that failed, without those that tell of no failure.
    sed '/^logic=not-proved/ q' "$log" |
        grep -v '^[a-z]* [^ ]*: proved$\|^\(crate\|library\|statements\|logic\|axioms\) \|^\(logic\|only\)=\|^\(note\|so far\): \|^rt: \(chose\|rt\) ' |
        tail -n 5 >&2 || :
    exit 2
}

# Proves a program and builds it: crates/NAME/out/NAME. rt then runs it, in the crate's folder, where there is nothing that it could read.
prove_program() { build "$1" program "$1"; }

program() { # NAME
    cd "crates/$1" && rt run
}

# Proves the panel's library and writes target/staticlib/libpanel.a.
prove_library() { build panel_c library; }

library() {
    (cd crates/panel_c && rt lib) && mkdir -p target/staticlib && cp crates/panel_c/out/libpanel_c.a target/staticlib/libpanel.a
}
