# Completion for bash. A new command is a line of the first table, and a new option a word of its line. An option that
# takes one of some words is a line of the second table, after its command's name. `--help`, `--strict`,
# `--states`, `--details` and `--progress` take nothing, and every other option a number, for which nothing is offered.
_htnplan_table='
plan --nodes --workers --piece --progress --seconds --help
verify --help
check --format --limit --strict --color --help
explain --format --states --color --help
tree --format --details --color --help
help
'
_htnplan_choices='
check--format text short json
check--color auto always never
explain--format text short json
explain--color auto always never
tree--format text ascii json dot svg html
tree--color auto always never
'

# The words of the line of a table that begins with a word.
_htnplan_line() {
    local name rest
    while read -r name rest; do
        if [ "$name" = "$2" ]; then printf '%s' "$rest"; fi
    done <<< "$1"
}

_htnplan() {
    local word=${COMP_WORDS[COMP_CWORD]} before=${COMP_WORDS[COMP_CWORD-1]} command=${COMP_WORDS[1]}
    local name rest commands='' words
    while read -r name rest; do commands="$commands $name"; done <<< "$_htnplan_table"
    words=$(_htnplan_line "$_htnplan_table" "$command")
    # In `--format=short` the `=` is a word.
    if [ "$word" = = ]; then word=; fi
    if [ "$before" = = ]; then before=${COMP_WORDS[COMP_CWORD-2]}; fi
    COMPREPLY=()
    if [ "$COMP_CWORD" -eq 1 ]; then
        words="$commands --help --version"
    elif [ "$command" = help ]; then
        words=$commands
    elif [[ $before == -* && $before != --help && $before != --strict && $before != --states && $before != --details && $before != --progress ]]; then
        words=$(_htnplan_line "$_htnplan_choices" "$command$before")
    elif [[ $word != -* ]]; then
        # An empty reply lets bash complete the name of a file.
        return
    fi
    # `compopt` is there from bash 4 on; without it bash offers files where no word fits.
    compopt +o default 2> /dev/null
    COMPREPLY=($(compgen -W "$words" -- "$word"))
}

complete -o default -F _htnplan htnplan
