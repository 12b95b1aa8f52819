# Completions for bash: `source completions/taskback.bash`, or copy it into /usr/share/bash-completion/completions/.
# They are for ./run, taskback, taskback-dap and taskcheck.

# The files that begin so and end with one of these, and folders.
_taskback_files() {
    local word=$1 ending found
    shift
    mapfile -t COMPREPLY < <(compgen -d -S / -- "$word"
        compgen -f -- "$word" | while IFS= read -r found; do
            for ending in "$@"; do
                [[ $found != *".$ending" || -d $found ]] || printf '%s\n' "$found"
            done
        done)
    for found in "${COMPREPLY[@]}"; do
        [[ $found == */ ]] && compopt -o nospace 2> /dev/null
    done
}

_taskback_words() {
    mapfile -t COMPREPLY < <(compgen -W "$2" -- "$1")
}

_taskback_run() {
    local word=${COMP_WORDS[COMP_CWORD]} before=${COMP_WORDS[COMP_CWORD - 1]}
    COMPREPLY=()
    case $before in
        --limit) _taskback_words "$word" "1000 100000 1000000" ;;
        --workers) _taskback_words "$word" "1 2 4 8 16 32 64" ;;
        -x) mapfile -t COMPREPLY < <(compgen -f -- "$word") ;;
        --judge) _taskback_files "$word" run ;;
        *)
            if [[ $word == -* ]]; then
                _taskback_words "$word" "--prove --serve --page --graph --lanes --judge --limit --workers --plain --check --json --help --version -i -x"
            else
                _taskback_files "$word" task session
            fi
            ;;
    esac
}

_taskback_program() {
    local word=${COMP_WORDS[COMP_CWORD]}
    COMPREPLY=()
    case ${COMP_WORDS[COMP_CWORD - 1]} in
        --limit) _taskback_words "$word" "1000 100000 1000000" ;;
        --workers) _taskback_words "$word" "1 2 4 8 16 32 64" ;;
        '<') _taskback_files "$word" session ;;
        *) _taskback_words "$word" "--limit --workers --help --version" ;;
    esac
}

_taskback_dap() {
    local word=${COMP_WORDS[COMP_CWORD]}
    COMPREPLY=()
    case ${COMP_WORDS[COMP_CWORD - 1]} in
        --program) mapfile -t COMPREPLY < <(compgen -f -- "$word") ;;
        *) _taskback_words "$word" "--port --program --help --version" ;;
    esac
}

_taskback_check() {
    local word=${COMP_WORDS[COMP_CWORD]}
    COMPREPLY=()
    if [[ $word == -* ]]; then
        _taskback_words "$word" "--help --version"
    else
        _taskback_files "$word" run
    fi
}

complete -F _taskback_run run
complete -F _taskback_program taskback
complete -F _taskback_dap taskback-dap
complete -F _taskback_check taskcheck
