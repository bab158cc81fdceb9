# Completion of pirgesh in bash: `source docs/pirgesh.bash`, or a copy of it in ~/.local/share/bash-completion/completions/pirgesh.
_pirgesh() {
    local word=${COMP_WORDS[COMP_CWORD]} command=${COMP_WORDS[1]}
    # A word SOURCE=TILE is three words for bash: the file comes after the mark.
    [[ $word != '=' ]] || word=
    COMPREPLY=()
    case $COMP_CWORD:$command in
        1:*) mapfile -t COMPREPLY < <(compgen -W 'value validate lint migrate simplify eval replay desk tile generate --help --version' -- "$word") ;;
        *:value | *:generate | *:--*) ;;
        3:eval | 4:replay) mapfile -t COMPREPLY < <(compgen -W "$(echo {0..24})" -- "$word") ;;
        2:lint) mapfile -t COMPREPLY < <(compgen -f -W --github -- "$word") ;;
        2:* | *:lint | 3:replay | *:eval | *:replay | *:desk) mapfile -t COMPREPLY < <(compgen -f -- "$word") ;;
    esac
}
complete -o filenames -F _pirgesh pirgesh ./pirgesh
