# Completion for fish. A new command is a line of the list, a new option a `complete` line below.
set -l commands \
    "plan\t'Prints the plan with the fewest nodes'" \
    "verify\t'Prints whether a plan is valid'" \
    "check\t'Says what is wrong with a domain and a problem'" \
    "explain\t'Says why a plan is invalid'" \
    "tree\t'Draws the decomposition tree of a plan'"

# Whether the command is the given one; an empty word stands for none so far.
function __htnplan_command_is
    set -l words (commandline -opc)
    test "$words[2]" = "$argv[1]"
end

complete -c htnplan -n '__htnplan_command_is ""' -f -a "$commands help\t'Shows the help of a command'"
complete -c htnplan -n '__htnplan_command_is help' -f -a "$commands"
complete -c htnplan -n '__htnplan_command_is ""' -s V -l version -d 'Prints the version'
complete -c htnplan -s h -l help -d 'Prints help'

complete -c htnplan -n '__htnplan_command_is plan' -l nodes -x -d 'Nodes of a plan, at most (100)'
complete -c htnplan -n '__htnplan_command_is plan' -l workers -x -d 'Threads that search (1)'
complete -c htnplan -n '__htnplan_command_is plan' -l piece -x -d 'For experiments: how work is cut (64)'
complete -c htnplan -n '__htnplan_command_is plan' -l progress -d 'Lines that say how the search gets on'
complete -c htnplan -n '__htnplan_command_is plan' -l seconds -x -d 'Stops the search after about N seconds'

complete -c htnplan -n '__htnplan_command_is check' -l format -x -a 'text short json' -d 'How it is printed (text)'
complete -c htnplan -n '__htnplan_command_is check' -l limit -x -d 'Diagnostics that text shows; 0 is all (20)'
complete -c htnplan -n '__htnplan_command_is check' -l strict -d 'A warning is status 1'
complete -c htnplan -n '__htnplan_command_is check' -l color -x -a 'auto always never' -d 'Colours (auto)'

complete -c htnplan -n '__htnplan_command_is explain' -l format -x -a 'text short json' -d 'How it is printed (text)'
complete -c htnplan -n '__htnplan_command_is explain' -l states -d 'What each action makes true and false'
complete -c htnplan -n '__htnplan_command_is explain' -l color -x -a 'auto always never' -d 'Colours (auto)'

complete -c htnplan -n '__htnplan_command_is tree' -l format -x -a 'text ascii json dot svg html' -d 'How it is drawn (text)'
complete -c htnplan -n '__htnplan_command_is tree' -l details -d 'Values of parameters, and where preconditions are tested'
complete -c htnplan -n '__htnplan_command_is tree' -l color -x -a 'auto always never' -d 'Colours (auto)'
