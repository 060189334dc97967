# How zsh completes the last word of each line of a file, which has the words of a call: writes to another file, for each line, the
# completions, one in a line, and a line that is empty.
#
#     zsh -f checks/completion.zsh FUNCTIONS LINES ANSWERS
#
# FUNCTIONS is the folder of the functions that complete. The line editor, by which alone they are called, runs in a terminal of its own.
zmodload zsh/zpty || exit 1
export FUNCTIONS=$1 LINES_FILE=$2 ANSWERS=$3
zpty -b shell zsh -f -i
zpty -w shell "source ${(q)0:A:h}/completion_widget.zsh"
repeat 600; do
    [[ -e $ANSWERS.done ]] && exit
    zpty -r -t shell said 2>/dev/null || sleep 0.1
done
print -u 2 "zsh did not answer"
exit 1
