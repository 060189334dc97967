# Completes the words of PROGRAM for fish, as its usage has them: an option once, and none that cannot be given with one that was given.

# Tells whether an option can come: none of these words was given; "A unless B" counts if nothing was
# given that begins with B.
function __PROGRAM_can
    set -l given (commandline -opc)
    for taken in $argv
        set -l words (string split -- " unless " $taken)
        contains -- $words[1] $given
        or continue
        test (count $words) = 2; and string match -q -- "* $words[2]*" " $given"
        or return 1
    end
    return 0
end

# Tells whether the last word is one of these: then what comes after it is completed.
function __PROGRAM_follows
    contains -- (commandline -opc)[-1] $argv
end

# Tells whether no word was given, or one word alone, which is one of these.
function __PROGRAM_is_first
    set -l given (commandline -opc)
    test (count $given) = 1
    and return 0
    test (count $given) = 2
    and contains -- $given[2] $argv
end

# [options]
