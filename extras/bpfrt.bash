# Completes the words of bpfrt in bash: source extras/bpfrt.bash
# Made by extras/completion of the program's help.

# The names of the maps of the program file among the words, a line each.
_bpfrt_maps() {
    local file
    for file in "${COMP_WORDS[@]:2}"; do
        if [[ -f $file ]]; then
            sed -n '1{/^bpfrt 1$/!q}; /^code$/q; s/^map \([a-z][a-z0-9_]*\) .*/\1/p' -- "$file" 2> /dev/null
            return
        fi
    done
}

_bpfrt_commands="check disasm asm script pool run trace filter"

# The options of a command.
_bpfrt_options() {
    case $1 in
    check) echo "--asm --log --explain --json" ;;
    disasm) echo "" ;;
    asm) echo "--file --plain --explain" ;;
    script) echo "--explain" ;;
    pool) echo "--contexts --packed --explain" ;;
    run) echo "--map --dump --explain --json" ;;
    trace) echo "--map --dump --explain --json" ;;
    filter) echo "--seccomp --explain" ;;
    esac
}

# Which of the words is the first that may be a command's file.
_bpfrt_place() {
    case $1 in
    check) echo 2 ;;
    disasm) echo 2 ;;
    asm) echo 2 ;;
    pool) echo 3 ;;
    run) echo 2 ;;
    trace) echo 2 ;;
    filter) echo 2 ;;
    esac
}

_bpfrt() {
    local word=${COMP_WORDS[COMP_CWORD]} before=${COMP_WORDS[COMP_CWORD - 1]} options place
    options=$(_bpfrt_options "${COMP_WORDS[1]}")
    place=$(_bpfrt_place "${COMP_WORDS[1]}")
    if ((COMP_CWORD == 1)); then
        mapfile -t COMPREPLY < <(compgen -W "$_bpfrt_commands help --help --version -h -V" -- "$word")
    elif [[ ${COMP_WORDS[1]} == help ]]; then
        mapfile -t COMPREPLY < <(compgen -W "$_bpfrt_commands" -- "$word")
    elif [[ $before == --map ]]; then
        mapfile -t COMPREPLY < <(compgen -W "$(_bpfrt_maps)" -- "$word")
    elif [[ $word == -* ]]; then
        mapfile -t COMPREPLY < <(compgen -W "$options" -- "$word")
    elif [[ -n $place ]] && ((COMP_CWORD >= place)) && { [[ $options != *--map* ]] || ((COMP_CWORD == place)) || [[ $before == --* ]]; }; then
        mapfile -t COMPREPLY < <(compgen -f -- "$word")
    fi
}
complete -o filenames -F _bpfrt bpfrt
