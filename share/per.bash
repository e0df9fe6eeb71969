# Completion of the words of per, for bash: to be sourced.
_per() {
    local word=${COMP_WORDS[COMP_CWORD]} before=${COMP_WORDS[COMP_CWORD - 1]} place
    COMPREPLY=()
    for ((place = 1; place < COMP_CWORD; place++)); do
        # What follows is no option.
        [ "${COMP_WORDS[place]}" != -- ] || return 0
    done
    if [ "$before" = --dir ]; then
        # Names are quoted for a shell, and a slash ends a folder.
        compopt -o filenames 2>/dev/null
        mapfile -t COMPREPLY < <(compgen -d -- "$word")
    elif [ "$before" = --list ]; then
        mapfile -t COMPREPLY < <(compgen -W "lines json" -- "$word")
    else
        mapfile -t COMPREPLY < <(compgen -W "--format --dir --serve --generate --audit --json --list --export --import --recover-root --flash --demo --help --version --build --force -- ls dump restore install update status set get keys put cat recover-root finish rollback wipe exists get-as remove remove-all recover-key reset-key files file-exists size-of info delete recover-file reset-file recover-storage reset-storage" -- "$word")
    fi
}
complete -o default -F _per per ./per
