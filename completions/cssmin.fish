# Completion of cssmin for fish.
function __cssmin_command -d 'Whether the command is one of these'
    set -l words (commandline -opc)
    test (count $words) -ge 2; and contains -- $words[2] $argv
end
function __cssmin_follows -d 'Whether nothing but a command was written'
    set -l words (commandline -opc)
    test (count $words) -le 2; and not contains -- help $words
end
complete -c cssmin -f
complete -c cssmin -n __fish_use_subcommand -a min -d 'Make a style sheet smaller, with the same winners on each legal page'
complete -c cssmin -n __fish_use_subcommand -a cmp -d 'Tell whether one element of a legal page can match two selectors'
complete -c cssmin -n __fish_use_subcommand -a dead -d 'Tell which selectors of a style sheet match nothing on any legal page'
complete -c cssmin -n __fish_use_subcommand -a style -d 'Tell which declarations win for an element of a small page'
complete -c cssmin -n __fish_use_subcommand -a why -d 'Tell why a rule may not be moved to another one'
complete -c cssmin -n __fish_use_subcommand -a same -d 'Compare which declarations win by two style sheets'
complete -c cssmin -n __fish_use_subcommand -a diff -d 'Tell how a style sheet differs from what another tool made of it'
complete -c cssmin -n __fish_use_subcommand -a blockers -d 'Tell which items stop merges that would save bytes'
complete -c cssmin -n __fish_use_subcommand -a list -d 'List the items of a style sheet, each with its number and its place'
complete -c cssmin -n __fish_use_subcommand -a lint -d 'Tell which selectors match nothing and which declarations come again'
complete -c cssmin -n __fish_use_subcommand -a inspect -d 'List all declarations for an element of a small page, and which win'
complete -c cssmin -n __fish_use_subcommand -a check -d 'Check a log that refutes a formula'
complete -c cssmin -n __fish_use_subcommand -a trial -d 'Make a sheet and merge it'
complete -c cssmin -n __fish_use_subcommand -a help -d 'Print help'
complete -c cssmin -n __fish_use_subcommand -s V -l version -d 'Print the version'
complete -c cssmin -n __cssmin_follows -s h -l help -d 'Print help'
complete -c cssmin -n '__cssmin_command min cmp dead why same diff blockers lint; and not __fish_contains_opt budget' -l budget -x -d 'Give up on two selectors after so many learned clauses'
complete -c cssmin -n '__cssmin_command min; and not __fish_contains_opt work' -l work -x -d 'Stop after so many steps and answers'
complete -c cssmin -n '__cssmin_command min; and not __fish_contains_opt report' -l report -d 'List what blocks further steps'
complete -c cssmin -n '__cssmin_command cmp; and not __fish_contains_opt log' -l log -d 'Write a log instead of disjoint'
complete -c cssmin -n '__cssmin_command diff; and not __fish_contains_opt limit' -l limit -x -d 'Tell at most so many changes of order'
