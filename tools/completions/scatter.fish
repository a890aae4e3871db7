# Completions of ./scatter and of the tools in tools/ for fish: `source tools/completions/scatter.fish`.
# Made by tools/script/pages from tools/script/words.txt: change that.

set -g __scatter_tools (dirname (dirname (realpath (status filename))))

function __scatter_options
    set -l words (commandline -opc)
    $words[1] --help 2>/dev/null </dev/null | string match -ra -- '--[a-z][a-z-]*' | sort -u
end

function __scatter_scenarios
    for file in $__scatter_tools/../scenarios/*.scatter
        basename $file .scatter
    end
end

complete -c scatter -f
complete -c scatter -n __fish_use_subcommand -l help -d 'prints what there is'
complete -c scatter -n __fish_use_subcommand -l version -d 'prints which version this is, and whether it is built'
complete -c scatter -n __fish_use_subcommand -a run -d 'runs the scenario in FILE and prints its report; run --json prints it as JSON'
complete -c scatter -n '__fish_seen_subcommand_from run' -F
complete -c scatter -n __fish_use_subcommand -a make -d 'runs a made scenario of 16 clients with N requests each, drawn by the number S, and counts the answered ones'
complete -c scatter -n __fish_use_subcommand -a journal -d 'runs the scenario in FILE and prints its journal behind it'
complete -c scatter -n '__fish_seen_subcommand_from journal' -F
complete -c scatter -n __fish_use_subcommand -a audit -d 'says whether the journal in FILE, as `journal` prints it, is lawful for its scenario'
complete -c scatter -n '__fish_seen_subcommand_from audit' -F
complete -c scatter -n __fish_use_subcommand -a scan -d 'runs the scenario in FILE and shows what the store holds on LEN positions from LO on after the first R rows, in pages of MOST pairs'
complete -c scatter -n '__fish_seen_subcommand_from scan' -F
complete -c scatter -n __fish_use_subcommand -a pool -d 'as run, where workers of a `free` line take the nodes and clients from one queue'
complete -c scatter -n '__fish_seen_subcommand_from pool' -F
complete -c scatter -n __fish_use_subcommand -a explain -d 'prints what each row of the journal in FILE decided, line by line, where `audit` says that the journal is lawful'
complete -c scatter -n '__fish_seen_subcommand_from explain' -F
complete -c scatter -n __fish_use_subcommand -a linear -d 'says whether the history in FILE, of any store, is linearizable, and with `order` by which linearization; it gives up behind MOST places of its search, or 10000000; the plain program in reference/ answers, of which nothing is proved'
complete -c scatter -n '__fish_seen_subcommand_from linear' -F
complete -c scatter -n __fish_use_subcommand -a demo -d 'runs the scenarios of scenarios/, or those that are named, and says of each what it shows'
complete -c scatter -n __fish_use_subcommand -a edit -d 'serves a page on 127.0.0.1 to write a scenario, run it or play it step by step, and look at its rows, until it is interrupted; options are --port N, and --seconds N and --memory MIB for a call of the program'
complete -c scatter -n __fish_use_subcommand -a serve -d 'runs a store of nodes that are processes, and answers redis clients on a port, until it is interrupted; `serve --help` names the options'
complete -c scatter -n __fish_use_subcommand -a order -d 'gives a store that runs an order, as `split G P`, and prints its result'
complete -c scatter -n __fish_use_subcommand -a build -d 'proves every crate and builds the program, once'
complete -c scatter -n __fish_use_subcommand -a built -d 'prints where the built program is, or with --any where the program is that answers, built or unproved'
complete -c scatter -n __fish_use_subcommand -a install -d 'links scatter, its manual page and its completions under PREFIX, which is ~/.local where none is named'
complete -c scatter -n __fish_use_subcommand -a uninstall -d 'takes these links away'
complete -c scatter -n __fish_use_subcommand -a help -d 'prints this page, or what one subcommand does'
complete -c scatter -n '__fish_seen_subcommand_from run pool make' -l json -d 'prints the report as JSON'
complete -c scatter -n '__fish_seen_subcommand_from install uninstall' -xa '(__fish_complete_directories)'
complete -c scatter -n '__fish_seen_subcommand_from demo' -a '(__scatter_scenarios)'
complete -c scatter -n '__fish_seen_subcommand_from help' -a 'run make journal audit scan pool explain linear demo edit serve order build built install uninstall help'
for tool in (find $__scatter_tools -maxdepth 1 -type f -executable)
    complete -p $tool -a '(__scatter_options)'
end
