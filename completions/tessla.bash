# Completion of tessla for bash.

# Takes each line as one completion. A name may look like a pattern, so no list of words is made of it.
_tessla_take() {
    local line
    while IFS= read -r line; do
        COMPREPLY+=("$line")
    done
}

# Takes the words that begin with what was typed.
_tessla_words() {
    local word=$1
    shift
    _tessla_take < <(compgen -W "$*" -- "$word")
}

# Takes the specifications, and the folders that they may stand in.
_tessla_specification() {
    compopt -o filenames 2>/dev/null
    _tessla_take < <(compgen -f -X '!*.tsl' -- "$1"; compgen -d -- "$1")
}

# Takes all files.
_tessla_file() {
    compopt -o filenames 2>/dev/null
    _tessla_take < <(compgen -f -- "$1")
}

_tessla() {
    local word=${COMP_WORDS[COMP_CWORD]} before=${COMP_WORDS[COMP_CWORD - 1]} command=${COMP_WORDS[1]-}
    COMPREPLY=()
    if [ "$COMP_CWORD" -eq 1 ]; then
        _tessla_words "$word" run check flat slice why show code compile exec gen bench state explain lint test picture page install package help --help --version
        return
    fi
    case $before in
    --until | --instants | --bytes) return ;;
    --save | --resume)
        _tessla_file "$word"
        return
        ;;
    esac
    case $command in
    run | exec)
        if [[ $word == -* ]]; then
            _tessla_words "$word" --until --instants --bytes --strict --stats --save --resume
        else
            _tessla_file "$word"
        fi
        ;;
    check | flat | show | code | lint) _tessla_specification "$word" ;;
    picture)
        if [[ $word == -* ]]; then
            _tessla_words "$word" --svg
        elif [ "$COMP_CWORD" -eq 2 ]; then
            _tessla_specification "$word"
        fi
        ;;
    slice)
        if [ "$COMP_CWORD" -eq 2 ]; then _tessla_specification "$word"; fi
        ;;
    why | explain)
        if [[ $word == -* && $command = explain ]]; then
            _tessla_words "$word" --instants --bytes --strict --all
        elif [[ $word == -* ]]; then
            _tessla_words "$word" --instants --bytes --strict
        elif [ "$COMP_CWORD" -eq 2 ]; then
            _tessla_specification "$word"
        elif [ "$COMP_CWORD" -eq 3 ]; then
            _tessla_file "$word"
        fi
        ;;
    compile)
        if [ "$COMP_CWORD" -eq 2 ]; then
            _tessla_specification "$word"
        else
            _tessla_file "$word"
        fi
        ;;
    state)
        if [[ $word == -* ]]; then
            _tessla_words "$word" --code
        else
            _tessla_file "$word"
        fi
        ;;
    gen | bench)
        if [ "$COMP_CWORD" -eq 2 ]; then
            _tessla_words "$word" seen copy
        fi
        ;;
    page) _tessla_file "$word" ;;
    test | install | package)
        if [[ $command = test && $word == -* ]]; then
            _tessla_words "$word" --bless
            return
        fi
        compopt -o filenames 2>/dev/null
        _tessla_take < <(compgen -d -- "$word")
        ;;
    esac
}

complete -F _tessla tessla ./tessla
