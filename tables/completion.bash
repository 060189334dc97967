# shellcheck shell=bash
# Completes the words of PROGRAM for bash, as its usage has them: an option once and before the files, and none that cannot be given with
# one that was given.

# Adds an option to `options`, if neither it nor another of these words was given; "A unless B" counts if nothing
# was given that begins with B.
_PROGRAM_offer() {
    local taken
    for taken; do
        [[ $given != *" ${taken% unless *} "* || $taken = *" unless "* && $given = *" ${taken#* unless }"* ]] || return 0
    done
    options+=("$1")
}

# Adds to `options` each option that can come after the words that were given.
_PROGRAM_options() {
    options=()
    # [options]
}

_PROGRAM() {
    local given=" ${COMP_WORDS[*]:1:COMP_CWORD-1} " word=${COMP_WORDS[COMP_CWORD]} options=()
    COMPREPLY=()
    case $given in
    # [words]
    *) _PROGRAM_options ;;
    esac
    [ "${#options[@]}" = 0 ] || mapfile -t COMPREPLY < <(compgen -W "${options[*]}" -- "$word")
    # [files]
}
complete -o filenames -F _PROGRAM PROGRAM
