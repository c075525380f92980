# What the scripts share: what they need, and steps, one after the other or side by side, with what passed and what each took.
passed=0
took=()
declare -A folders pids

# Says what is missing, and ends.
need() {
    if ! command -v "$1" > /dev/null; then
        echo "$0: $1 is not on the PATH" >&2
        exit 1
    fi
}

# Proves and builds the static libraries, and puts them where C callers look for them, under the names that these know.
libraries() {
    mkdir -p target/staticlib \
        && (cd crates/boundary && rt lib) && cp -f crates/boundary/out/libboundary.a target/staticlib/ \
        && (cd crates/lookup_c && rt lib) && cp -f crates/lookup_c/out/liblookup_c.a target/staticlib/liblookup.a
}

# Proves and builds the desk program, and puts it into target/bin. rt also runs what it has built: the desk ends at once, for want of
# input.
desk() {
    (cd crates/desk && rt run < /dev/null > /dev/null) && mkdir -p target/bin && cp -f crates/desk/out/desk target/bin/
}

# Says what went wrong, and ends once all that was begun has ended.
fail() {
    echo "$0: $1" >&2
    wait
    rm -rf "${folders[@]}"
    exit 1
}

# build NAME COMMAND..: runs a command that passes nothing; what it writes is shown only where it fails.
build() {
    local name=$1 began=$SECONDS said
    shift
    if ! said=$("$@" 2>&1); then
        echo "$said"
        fail "$name failed"
    fi
    took+=("$name: $((SECONDS - began)) s")
}

# step NAME COMMAND..: runs a command whose last line is 'N passed, 0 failed', and shows what it writes.
step() {
    local name=$1 began=$SECONDS folder
    shift
    folder=$(mktemp -d) || exit 1
    "$@" 2>&1 | tee "$folder/log"
    echo "${PIPESTATUS[0]} $((SECONDS - began))" > "$folder/end"
    count "$name" "$folder"
}

# begin NAME COMMAND..: starts such a command beside those that follow; `finish NAME` waits for it and shows what it wrote.
begin() {
    local name=$1 began=$SECONDS folder
    shift
    folder=$(mktemp -d) || exit 1
    {
        "$@" > "$folder/log" 2>&1
        echo "$? $((SECONDS - began))" > "$folder/end"
    } &
    folders[$name]=$folder
    pids[$name]=$!
}

finish() {
    wait "${pids[$1]}"
    cat "${folders[$1]}/log"
    count "$1" "${folders[$1]}"
}

# count NAME FOLDER: adds up what passed in a step that has ended, and notes what it and its parts took; ends where it failed.
count() {
    local status seconds last parts
    read -r status seconds < "$2/end"
    last=$(tail -n 1 "$2/log")
    mapfile -t parts < <(sed -n "s/^took /$1, /p" "$2/log")
    rm -rf "$2"
    [ "$status" -eq 0 ] || fail "$1 ended with status $status"
    [[ $last =~ ^([1-9][0-9]*)\ passed,\ 0\ failed$ ]] || fail "the last line of $1 is not 'N passed, 0 failed'"
    passed=$((passed + BASH_REMATCH[1]))
    took+=("$1: $seconds s" "${parts[@]}")
}

# What each step took, and the sum of what passed.
finished() {
    printf 'took %s\n' "${took[@]}"
    echo "$passed passed, 0 failed"
}
