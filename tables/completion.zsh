#compdef PROGRAM
# Completes the words of PROGRAM for zsh, as its usage has them: an option once, and none that cannot be given with one that was given.

# Prints options if no words were given that begin so: `_PROGRAM_unless WORDS OPTION..`.
_PROGRAM_unless() {
    [[ " ${words[*]} " = *" $1"* ]] || print -r -- "${@:2}"
}

local specs=(
    # [options]
)
_arguments $specs
