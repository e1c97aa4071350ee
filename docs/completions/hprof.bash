# Completions of hprof for bash. ./install puts this file where the package bash-completion finds it; `source` needs no package.

# Replies with the words of a list that begin as the word at the cursor does.
_hprof_words() {
    mapfile -t COMPREPLY < <(compgen -W "$1" -- "${COMP_WORDS[COMP_CWORD]}")
}

# Adds to the reply what compgen finds for the word at the cursor, as names of files.
_hprof_files() {
    local found word=${COMP_WORDS[COMP_CWORD]//\\/}
    compopt -o filenames 2>/dev/null
    mapfile -t found < <(compgen "$@" -- "${word#[\"\']}")
    COMPREPLY+=("${found[@]}")
}

# Replies with dumps and folders; with all files if there are none.
_hprof_dumps() {
    _hprof_files -f -X '!*.hprof'
    _hprof_files -d
    [[ ${#COMPREPLY[@]} -gt 0 ]] || _hprof_files -f
}

_hprof_has() {
    [[ " $1 " == *" $2 "* ]]
}

# Counts the words before the one at the cursor, without --memory and its size. A shell may make three words of --memory=SIZE.
_hprof_place() {
    local word last
    place=0
    for word in "${COMP_WORDS[@]:1:COMP_CWORD-1}"; do
        [[ $word == --memory* || $word == = || $last == --memory || $last == = ]] || place=$((place + 1))
        last=$word
    done
}

_hprof() {
    # By what a command takes before dumps: a new file, nothing, a class or a type, a class or an object. diff takes two dumps.
    local outs='join join101 salvage'
    local heaps='check histo classes threads suspects retained ask'
    local kinds='biggest objects'
    local nodes='show why who keeps text object refs path'
    local pairs='diff'
    local commands="$outs $heaps $kinds $pairs $nodes"
    local command=${COMP_WORDS[1]} before=${COMP_WORDS[COMP_CWORD - 1]} place
    _hprof_place
    COMPREPLY=()
    if ((place == 0)); then
        _hprof_words "$commands help -h --help -V --version"
    elif [[ $before == --memory || $before == = || ${COMP_WORDS[COMP_CWORD]} == = ]]; then
        # A size has to be typed.
        COMPREPLY=()
    elif [[ ${COMP_WORDS[COMP_CWORD]} == -* ]] && _hprof_has "$commands" "$command"; then
        _hprof_words '-h --help --memory'
    elif [[ ${COMP_WORDS[COMP_CWORD]} == -* ]]; then
        _hprof_words '-h --help'
    elif ((place == 1)) && [[ $command == help ]]; then
        _hprof_words "$commands"
    elif ((place == 1)) && _hprof_has "$outs" "$command"; then
        _hprof_files -d
    elif ((place == 1)) && _hprof_has "$kinds" "$command"; then
        _hprof_words 'boolean[] char[] float[] double[] byte[] short[] int[] long[]'
    elif ((place == 1)) && _hprof_has "$heaps $pairs" "$command"; then
        _hprof_dumps
    elif ((place == 2)) && _hprof_has "$pairs" "$command"; then
        _hprof_dumps
    elif ((place >= 2)) && _hprof_has "$heaps $outs $kinds $nodes" "$command"; then
        _hprof_dumps
    fi
}

complete -F _hprof hprof
