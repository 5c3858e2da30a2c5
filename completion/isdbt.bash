# Completion of isdbt's words in bash: commands, modes, guard intervals, plans part by part, files, and the words that may stand
# behind an input. bash-completion loads it from its folder; else it is sourced. It wants bash 4.3 or later.

# Fills `words` with those of the line up to the cursor. COMP_WORDS parts them at : = and @ too, so its pieces are joined again
# where no blank stands between.
_isdbt_words() {
    local line=${COMP_LINE:0:COMP_POINT} piece
    words=()
    for piece in "${COMP_WORDS[@]:0:COMP_CWORD+1}"; do
        if [[ ${#words[@]} -eq 0 || $line == [[:blank:]]* ]]; then
            words+=("")
            line=${line#"${line%%[![:blank:]]*}"}
        fi
        words[-1]+=${line:0:${#piece}}
        line=${line:${#piece}}
    done
}

# The command is known: where its words begin, its inputs, and the words that may stand behind them.
_isdbt_begin() {
    command=$1
    case $command in
        remux) place=mode inputs=(A= B= C=) ;;
        code) place=mode inputs=(IN=) tail=(v2) ;;
        receive) place=told inputs=(IN=) tail=(partial fix) ;;
        bts) place=mode inputs=(IN=) ;;
        cells) place=told inputs=(IN=) tail=(fix) ;;
    esac
}

# The first setting of a plan says how many layers it has, and so, for remux, how many inputs.
_isdbt_layers() {
    local commas=${1//[!,]/}
    [[ $layers -gt 0 ]] && return
    layers=$((${#commas} + 1))
    [[ $command == remux ]] && inputs=("${inputs[@]:0:layers}")
}

# Drops of `tail` the word and those that can't stand behind it.
_isdbt_behind() {
    local first=
    while [[ ${#tail[@]} -gt 0 && $first != "$1" ]]; do
        first=${tail[0]}
        tail=("${tail[@]:1}")
    done
}

# Moves on behind a finished word.
_isdbt_pass() {
    case $place:$1 in
        command:show) place=shown ;;
        command:* | shown:*) place=end; _isdbt_begin "$1" ;;
        mode:* | told:[123] | switched:[123]) mode=$1 place=guard ;;
        guard:*) if [[ $command == remux || $command == code ]]; then place=setting; else place=input; fi ;;
        setting:* | switched:*) place=planned; _isdbt_layers "$1" ;;
        planned:@*) place=switched switches+=1 ;;
        planned:* | told:* | input:*)
            inputs=("${inputs[@]:1}")
            if [[ ${#inputs[@]} -gt 0 ]]; then place=input; else place='tail'; fi
            ;;
        tail:*) _isdbt_behind "$1" ;;
    esac
}

# How many of the 13 segments the layers before the one in work leave; none where they are no layers.
_isdbt_left() {
    local layer
    left=13
    for layer in ${1//,/ }; do
        layer=${layer#?:}
        case ${layer%%:*} in
            [1-9] | 1[0-3]) left=$((left - ${layer%%:*})) ;;
            *) left=0 ;;
        esac
    done
}

# Offers the segments of a layer, of which `index` stand before: all that are left for the last, else one at least for each that
# must follow.
_isdbt_segments() {
    local -i count=1 most=$((layers > 0 ? left - (layers - index - 1) : left))
    [[ $left -gt 0 && ($index -eq 2 || $index -eq $((layers - 1))) ]] && count=$left
    for ((; count <= most; count++)); do parts+=("$count:"); done
}

# Offers the lengths of time interleaving: behind them the word ends, or another layer must follow.
_isdbt_depths() {
    local behind=
    local -a lengths=()
    case $mode in
        1) lengths=(0 4 8 16) ;;
        2) lengths=(0 2 4 8) ;;
        3) lengths=(0 1 2 4) ;;
    esac
    [[ $left != "$1" ]] && behind=,
    parts=("${lengths[@]/%/$behind}")
    [[ $index -eq 0 && $1 == 1 ]] && parts+=("${lengths[@]/%/:partial,}")
}

# Offers the next part of the setting in work.
_isdbt_setting() {
    local layer=${current##*,} left
    local before=${current%"$layer"}
    local stands=${layer%"${layer##*:}"}
    local colons=${layer//[!:]/} commas=${before//[!,]/} segments=${layer#?:}
    local -i index=${#commas}
    local -a parts=() letters=(A: B: C:)
    segments=${segments%%:*}
    _isdbt_left "$before"
    case ${#colons} in
        0) [[ $left -gt 0 && $index -lt 3 ]] && parts=("${letters[index]}") ;;
        1) _isdbt_segments ;;
        2) parts=(qpsk: 16qam: 64qam:) ;;
        3) parts=(1/2: 2/3: 3/4: 5/6: 7/8:) ;;
        4) _isdbt_depths "$segments" ;;
        5) [[ $index -eq 0 && $segments == 1 ]] && parts=("partial,") ;;
    esac
    offers+=("${parts[@]/#/$before$stands}")
}

# Fills `offers` with what may stand next.
_isdbt_offer() {
    case $place in
        command) offers=(remux code receive show sample --help --version) ;;
        shown) offers=(bts cells) ;;
        mode) offers=(1 2 3) ;;
        guard) offers=(1/4 1/8 1/16 1/32) ;;
        setting) _isdbt_setting ;;
        switched) offers=(1 2 3); _isdbt_setting ;;
        planned) offers=("${inputs[0]}"); [[ $switches -lt 7 ]] && offers+=(@) ;;
        told) offers=(1 2 3 "${inputs[0]}") ;;
        input) offers=("${inputs[0]}") ;;
        tail) offers=("${tail[@]}") ;;
    esac
}

# Passes the finished words, but not the targets of redirections; `target` is left where one is still to come.
_isdbt_finished() {
    local word
    for word in "$@"; do
        if [[ -n $target ]]; then
            target=
        elif [[ $word == *[\<\>] ]]; then
            target=$word
        elif [[ $word != *[\<\>]* ]]; then
            _isdbt_pass "$word"
        fi
    done
}

# Whether a file's name is in work.
_isdbt_names() {
    [[ -n $target || $current == *[\<\>]* ]] && return
    [[ $place == planned || $place == told || $place == input ]] && [[ $current == "${inputs[0]}"* ]]
}

_isdbt() {
    local command='' place=command mode='' target='' current
    local -i layers=0 switches=0
    local -a words inputs=() tail=() offers=()
    _isdbt_words
    current=${words[-1]}
    _isdbt_finished "${words[@]:1:${#words[@]}-2}"
    COMPREPLY=()
    if _isdbt_names; then
        compopt -o default
        return
    fi
    _isdbt_offer
    mapfile -t COMPREPLY < <(compgen -W "${offers[*]}" -- "$current")
    if [[ ${#COMPREPLY[@]} -eq 1 && ${COMPREPLY[0]} == *[:,=@] ]]; then compopt -o nospace; fi
    # Readline sees of the word in work only what stands behind the last character that parts words.
    local breaks=${COMP_WORDBREAKS//[!:=@]/}
    [[ -n $breaks ]] && COMPREPLY=("${COMPREPLY[@]#"${current%"${current##*["$breaks"]}"}"}")
    return 0
}

complete -F _isdbt isdbt
