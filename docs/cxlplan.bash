# Completion for bash: the commands, options and files of cxlplan and of what stands beside it, and the words of a line that asks for
# a region: kinds, sizes, ways and the endpoints of the topology.

# The names that a topology file gives its endpoints.
_cxl_endpoints() {
    [[ -f "$1" ]] && awk -F '"' '/^ *\[/ { is_one = /^ *\[\[endpoint\]\]/ } is_one && /^ *name *=/ { print $2 }' "$1" 2>/dev/null
}

# What can follow in `create NAME KIND SIZE [gran=G] EP..`, by the topology's file and the words that stand there.
_cxl_create() {
    local topology="$1" count=$(($# - 1))
    [[ "$*" != *ways=* ]] || return 0
    case "$count" in
    1) echo r0 ;;
    2) echo ram pmem ;;
    3) echo 0x10000000 0x20000000 0x40000000 0x80000000 ;;
    *)
        ((count > 4)) || echo gran=256 gran=512 gran=1024 gran=2048 gran=4096 gran=8192 gran=16384
        ((count > 5)) || echo ways=1 ways=2 ways=3 ways=4 ways=6 ways=8 ways=12 ways=16
        _cxl_endpoints "$topology"
        ;;
    esac
}

# Whether the word is a value of --kind, or one of ways= and gran=, behind whose "=" bash begins a word: then these are offered.
_cxl_value() {
    local word="${COMP_WORDS[COMP_CWORD]}" at=$((COMP_CWORD - 2)) values
    [[ "$word" != "=" ]] || at=$((COMP_CWORD - 1))
    case "${COMP_WORDS[at]-}${COMP_WORDS[at + 1]-}" in
    *--kind) values='ram pmem' ;;
    ways=) values='1 2 3 4 6 8 12 16' ;;
    gran=) values='256 512 1024 2048 4096 8192 16384' ;;
    *) return 1 ;;
    esac
    mapfile -t COMPREPLY < <(compgen -W "$values" -- "${word#=}")
}

_cxlplan() {
    local word="${COMP_WORDS[COMP_CWORD]}" verb="${COMP_WORDS[1]-}" front last
    local -a before
    COMPREPLY=()
    case "$COMP_CWORD $verb" in
    "1 "*) mapfile -t COMPREPLY < <(compgen -W 'route list normal check plan run gen --help --version' -- "$word") ;;
    "2 --"*) ;;
    "2 gen") mapfile -t COMPREPLY < <(compgen -W '1 2 4 8 16 32' -- "$word") ;;
    "3 check" | "3 plan" | "3 run")
        compopt -o filenames
        mapfile -t COMPREPLY < <(
            compgen -f -X '!*.toml' -- "$word"
            compgen -d -- "$word"
        )
        ;;
    "2 "* | "4 check" | "4 run")
        compopt -o filenames
        mapfile -t COMPREPLY < <(compgen -f -- "$word")
        ;;
    "3 route") [[ "$word" ]] || { compopt -o nospace && COMPREPLY=(0x); } ;;
    "4 plan")
        # the line is one word, in quotes
        front="${word#[\"\']}"
        compopt -o nospace
        if [[ "$front" != "create "* ]]; then
            COMPREPLY=("'create ")
            return
        fi
        last="${front##* }"
        read -ra before <<<"${front%"$last"}"
        mapfile -t COMPREPLY < <(compgen -P "${front%"$last"}" -W "$(_cxl_create "${COMP_WORDS[3]}" "${before[@]}")" -- "$last")
        ;;
    esac
}

# The options that a tool has, and files.
_cxl_files() {
    local word="${COMP_WORDS[COMP_CWORD]}"
    compopt -o filenames
    case "$word" in
    -*) mapfile -t COMPREPLY < <(compgen -W "$1" -- "$word") ;;
    *) mapfile -t COMPREPLY < <(compgen -f -- "$word") ;;
    esac
}

_cxlbench() {
    _cxl_files '--read-back --help --version'
}

_cxl_capture() {
    _cxl_files '--registers --attributes --copy --from --list --table --leave-empty --leave-windows --help'
}

_cxl_regions() {
    _cxl_files '--words --image --help'
}

_cxl_picture() {
    _cxl_files '--help'
}

# The topology of the host on the line: that of a captured folder, or the first file that is one by its name.
_cxl_topology() {
    local word
    for word in "${COMP_WORDS[@]:2:COMP_CWORD-2}"; do
        case "$word" in
        *.toml) echo "$word" ;;
        *) [[ ! -f "$word/topo.toml" ]] || echo "$word/topo.toml" ;;
        esac
    done | sed -n 1p
}

# The words of a region behind the host, for `cxldesk plan`.
_cxl_region() {
    local word
    local -a before=(create)
    for word in "${COMP_WORDS[@]:2:COMP_CWORD-2}"; do
        case "$word" in
        -* | create | *.cedt | *.toml | *.image | *.bin) ;;
        *) [[ -e "$word" ]] || before+=("$word") ;;
        esac
    done
    _cxl_create "$1" "${before[@]}"
}

# The commands of cxldesk, the options that each has, and files.
_cxldesk() {
    local words word="${COMP_WORDS[COMP_CWORD]}" topology
    COMPREPLY=()
    case "${COMP_WORDS[1]-}" in
    show) words='--json --aligned --reset --all --help' ;;
    where) words='--json --aligned --reset --length --poison --help' ;;
    room) words='--json --aligned --reset --kind --help' ;;
    plan) words='--json --aligned --reset --linux --words --c --csv --image --help' ;;
    report) words='--json --reset --help' ;;
    fleet) words='--db --out --jobs --help' ;;
    shell) words='--reset --stop --help' ;;
    image | table) words='--json --reset --from --to --help' ;;
    *) words='--json --aligned --help' ;;
    esac
    if ((COMP_CWORD == 1)); then
        mapfile -t COMPREPLY < <(compgen -W 'show check where room plan diff report fleet shell image table --help --version' -- "${COMP_WORDS[1]}")
        return
    fi
    if _cxl_value; then
        return
    fi
    topology="$(_cxl_topology)"
    if [[ "$topology" && "$word" != -* ]]; then
        case "${COMP_WORDS[1]}" in
        plan) mapfile -t COMPREPLY < <(compgen -W "$(_cxl_region "$topology")" -- "$word") ;;
        where) mapfile -t COMPREPLY < <(compgen -W "0x $(_cxl_endpoints "$topology")" -- "$word") ;;
        esac
    fi
    ((${#COMPREPLY[@]})) || _cxl_files "$words"
}

complete -F _cxlplan cxlplan
complete -F _cxldesk cxldesk
complete -F _cxlbench cxlbench
complete -F _cxl_capture cxl-capture
complete -F _cxl_regions cxl-regions
complete -F _cxl_picture cxl-picture
