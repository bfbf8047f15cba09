# Completions of `reassign` for fish. SPDX-License-Identifier: MIT OR Apache-2.0

complete -c reassign -n __fish_use_subcommand -f -a check -d 'judge a list and print what it costs'
complete -c reassign -n __fish_use_subcommand -f -a bound -d 'print a lower bound of the cost'
complete -c reassign -n __fish_use_subcommand -f -a solve -d 'look for a cheaper assignment'
complete -c reassign -n __fish_use_subcommand -f -a trial -d 'solve an instance made from a number'
complete -c reassign -n __fish_use_subcommand -f -a verify -d 'judge the report of a run'
complete -c reassign -n __fish_use_subcommand -f -a repair -d 'look for a feasible assignment'
complete -c reassign -n __fish_use_subcommand -f -a edit -d 'add, retire and resize processes'
complete -c reassign -n '__fish_seen_subcommand_from check bound solve verify repair edit' -l closed -r -F -d 'machines to which nobody may move'
complete -c reassign -n '__fish_seen_subcommand_from solve verify' -l slack -x -d 'by how much the cost may rise on the way'
complete -c reassign -n '__fish_seen_subcommand_from solve verify' -l draws -x -a '1 2' -d 'how proposals name machines'
complete -c reassign -n '__fish_seen_subcommand_from trial' -f
