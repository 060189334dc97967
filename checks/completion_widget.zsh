# What checks/completion.zsh runs in the terminal.
PROMPT= RPROMPT=
fpath=($FUNCTIONS $fpath)
autoload -Uz compinit
compinit -D -u

# Takes the place of the builtin, by which completions are added: writes those that match.
compadd() {
    local -a hits
    if [[ ${@[1,(i)(-|--)]} != *-(O|A|D)\ * ]]; then
        builtin compadd -A hits "$@"
        (( $#hits == 0 )) || print -rl -- $hits >>$ANSWERS
    fi
    builtin compadd "$@"
}

complete-silently() {
    _main_complete
    compstate[insert]= compstate[list]=
}
zle -C complete-silently complete-word complete-silently

answer-all() {
    local line
    : >$ANSWERS
    while IFS= read -r line; do
        BUFFER=$line CURSOR=$#line
        zle complete-silently
        print >>$ANSWERS
    done <$LINES_FILE
    BUFFER=
    : >$ANSWERS.done
}
zle -N answer-all
zle-line-init() { answer-all }
zle -N zle-line-init
