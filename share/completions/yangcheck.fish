# Completions of yangcheck for fish.

# Prints the names of the modules in the YANG files of the command line, or of the current folder if it names none.
function __yangcheck_modules
    set -l files (commandline -opc | string match -- '*.yang')
    test (count $files) -gt 0; or set files ./*.yang
    test (count $files) -gt 0; or return
    cat $files 2>/dev/null | string match -rg '^\s*module\s+([A-Za-z_][A-Za-z0-9_.-]*)'
end

set -l commands compile tree validate lint files
set -l rules FileName NoRevision IncompleteHeader StatementOrder UnusedImport VersionMix NoSuchDate RevisionOrder Version11 \
    MinAboveMax UnusedTypedef UnusedGrouping PatternAnchor NoDescription
set -l in_command "__fish_seen_subcommand_from $commands"

complete -c yangcheck -f
complete -c yangcheck -s h -l help -d 'Print help'
complete -c yangcheck -n __fish_use_subcommand -s V -l version -d 'Print the version'
complete -c yangcheck -n __fish_use_subcommand -a compile -d 'Compile modules, and count the nodes of their schema'
complete -c yangcheck -n __fish_use_subcommand -a tree -d 'Draw the tree diagrams of modules'
complete -c yangcheck -n __fish_use_subcommand -a validate -d 'Validate JSON documents against modules'
complete -c yangcheck -n __fish_use_subcommand -a lint -d 'List what to mend in modules before they are published'
complete -c yangcheck -n __fish_use_subcommand -a files -d 'Print the files that are named and found'
complete -c yangcheck -n __fish_use_subcommand -a help -d 'Print help'
complete -c yangcheck -n '__fish_seen_subcommand_from help' -a "$commands help"

complete -c yangcheck -n $in_command -l path -x -a '(__fish_complete_directories (commandline -ct))' -d 'Folder in which imported modules are found'
complete -c yangcheck -n $in_command -l max-nodes -x -d 'Most nodes and uses that the modules may expand to'
complete -c yangcheck -n $in_command -l support -x -a '(__yangcheck_modules | string replace -r \'$\' :)' -d 'Supported features of modules'
complete -c yangcheck -n $in_command -l import-only -x -a '(__fish_append , (__yangcheck_modules))' -d 'Modules that are only imported'
complete -c yangcheck -n '__fish_seen_subcommand_from tree' -l module -x -a '(__yangcheck_modules)' -d 'Module to draw'
complete -c yangcheck -n '__fish_seen_subcommand_from tree' -l depth -x -d 'Levels of nodes to draw, from 1 to 128'
complete -c yangcheck -n '__fish_seen_subcommand_from tree' -l below -x -d 'Node to draw with all below it: /MODULE:NAME/NAME'
complete -c yangcheck -n '__fish_seen_subcommand_from tree' -l columns -d 'Write types in columns, and cases that a choice leaves out'
complete -c yangcheck -n '__fish_seen_subcommand_from validate' -l data -r -k -a '(__fish_complete_suffix .json)' -d 'JSON document, or - for standard input'
complete -c yangcheck -n '__fish_seen_subcommand_from validate' -l each -x -a 'file\t"a document" line\t"documents on lines" name\t"file names on lines" name0\t"file names ended by NUL"' -d 'What each --data holds'
complete -c yangcheck -n '__fish_seen_subcommand_from validate' -l kind -x -a 'data\t"configuration and state" config\t"configuration alone"' -d 'What the document holds'
complete -c yangcheck -n '__fish_seen_subcommand_from validate' -l explain -x -d 'Faults of a document that are explained on standard error'
complete -c yangcheck -n '__fish_seen_subcommand_from lint' -l rules -x -a "(__fish_append , $rules)" -d 'Rules whose findings are listed'
complete -c yangcheck -n '__fish_seen_subcommand_from compile validate lint' -l format -x -a 'text\t"lines of text" json\t"a JSON object on each line"' -d 'Form of standard output'
complete -c yangcheck -n '__fish_seen_subcommand_from compile validate' -l measures -d 'Print what bounds the work of a validation'
complete -c yangcheck -n $in_command -k -a '(__fish_complete_suffix .yang)'
