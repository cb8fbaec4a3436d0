# How far a proof is. Sourced after words.sh and build.sh; root is the repository.
#
# rt builds a crate in the crate's own folder, over the libraries that stand there. So each crate has its turn, and a line tells of each that is not done at
# once. What is left is guessed: a crate has a weight, and what those that have ended took by the clock tells the machine's pace.

declare -A rests weights fates
order=()
while IFS=: read -r name deps; do rests[${name%% *}]=$deps; done < <(grep -v '^#' "$root/crates.txt" | grep .)

# needed CRATE: puts a crate and what it rests on into order, lowest first, by crates.txt; the kit's own are not there.
needed() {
    local dep
    [ -n "${rests[$1]+listed}" ] && [ -z "${fates[$1]+listed}" ] || return 0
    fates[$1]=waits
    for dep in ${rests[$1]}; do needed "$dep"; done
    order+=("$1")
}

# listed: the crates of crates.txt, in its order.
listed() { sed -n 's/^\([a-z0-9_]*\)\(  *staticlib\)\{0,1\} *:.*/\1/p' "$root/crates.txt"; }

# fronts: the crates that export calls to C, which the library is made of, in the order of crates.txt.
fronts() { sed -n 's/^\([a-z0-9_]*\)  *staticlib *:.*/\1/p' "$root/crates.txt"; }

# made_of CRATE: what rt makes of a crate, in its folder: a program, a static library or a library.
made_of() {
    local out=crates/$1/out
    if [ -f "$root/crates/$1/src/main.rt" ]; then echo "$out/$1"; elif fronts | grep -qx "$1"; then echo "$out/lib$1.a"; else echo "$out/rlib/$1.rlib"; fi
}

# sources: the code, contracts and proofs of the crates in order.
sources() {
    local name part
    echo "$root/crates.txt"
    for name in "${order[@]}"; do
        for part in src specs proofs; do [ ! -d "$root/crates/$name/$part" ] || echo "$root/crates/$name/$part"; done
    done
}

# weight CRATE: about how many seconds its proof takes, on a machine of today: by its functions, those that types derive too, and by the text that is to be checked.
weight() {
    local functions text
    functions=$(find "$root/crates/$1/src" -name '*.rt' -exec cat {} + |
        awk '/^ *(pub )?(extern "C" )?fn / { n++ } /^ *#\[derive\(/ { n += gsub(/PartialEq|PartialOrd|Ord|Hash|Debug|Default/, "") + (/Clone/ && !/Copy/) } END { print n + 0 }')
    text=$(find "$root/crates/$1" -name out -prune -o -name '*.antt' -exec cat {} + | wc -c)
    echo $((2 + functions + text / 20000))
}

# span SECONDS: in words.
span() { if [ "$1" -lt 100 ]; then echo "$1 s"; else echo "$((($1 + 30) / 60)) min"; fi; }

# told CRATE: a line for a crate that rt is proving.
told() {
    begun=$((begun + 1))
    echo "$tool: $begun of ${#order[@]} crates: $1; about $(span $((left * (SECONDS - since + 2) / (ended + 2) + 1))) left" >&2
}

# build CRATE: has rt prove and build it, a program without running on any input. Its libraries stand there, since they had their turn.
build() {
    cd "$root/crates/$1" || return
    case $(made_of "$1") in
    */rlib/* | *.a) rt lib ;;
    *) rt run </dev/null ;;
    esac
}

# prove: builds the crates in order, and tells how far it is. What rt says goes to target/log/CRATE.log; of what failed the first lines are told.
begun=0 ended=0 left=0 since=0
prove() {
    local pid name status began log
    folders "$root/target/log"
    begun=0 ended=0 left=0 since=$SECONDS
    for name in "${order[@]}"; do
        weights[$name]=$(weight "$name")
        left=$((left + weights[$name]))
    done
    for name in "${order[@]}"; do
        log=$root/target/log/$name.log began=${EPOCHREALTIME/[.,]/}
        (build "$name") >"$log" 2>&1 &
        pid=$!
        # One that has not changed is soon done.
        while kill -0 "$pid" 2>/dev/null && [ $((${EPOCHREALTIME/[.,]/} - began)) -lt 2000000 ]; do sleep 0.1; done
        if kill -0 "$pid" 2>/dev/null; then told "$name"; else begun=$((begun + 1)) log=''; fi
        wait "$pid"
        status=$?
        if [ $status -ne 0 ]; then
            grep -E '^rt: |: error' "$root/target/log/$name.log" | head -n 5 >&2
            echo "$tool: $name is not proved or not built; target/log/$name.log has what rt said" >&2
            return 1
        fi
        left=$((left - weights[$name]))
        [ -z "$log" ] || ended=$((ended + weights[$name]))
    done
}
