# Completions of lc for fish.

# Whether the command on the line is one of these. A first argument that is an option, a path or a directory makes all arguments those of lc
# count.
function __lc_command_is
    set -l words (commandline -opc) (commandline -ct)
    switch "$words[2]"
        case count sum diff explain check languages help
            test (count (commandline -opc)) -gt 1; and contains -- $words[2] $argv
        case '-*' . .. '*/*'
            contains -- count $argv
        case '*'
            test (count (commandline -opc)) -gt 1; and test -d "$words[2]"; and contains -- count $argv
    end
end

# Of these columns those of --by that are left after those that are typed, in a list with commas.
function __lc_columns
    set -l typed (string replace -r '^--by=' '' -- (commandline -ct) | string replace -r '[^,]*$' '')
    for column in $argv
        string match -q -- "*,$column,*" ",$typed"; or echo $typed$column
    end
end

complete -c lc -f
complete -c lc -n __fish_use_subcommand -a count -d 'Count files, lines and bytes of a directory'
complete -c lc -n __fish_use_subcommand -a sum -d 'Add reports'
complete -c lc -n __fish_use_subcommand -a diff -d 'Compare two directories or reports'
complete -c lc -n __fish_use_subcommand -a explain -d 'Show which rule skips or keeps a path'
complete -c lc -n __fish_use_subcommand -a check -d 'Match paths against the rules of one file'
complete -c lc -n __fish_use_subcommand -a languages -d 'Print the list of languages'
complete -c lc -n __fish_use_subcommand -a help -d 'Print help'
complete -c lc -n __fish_use_subcommand -a '(__fish_complete_directories)'
complete -c lc -n __fish_use_subcommand -l version -s V -d 'Print the version'
complete -c lc -l help -s h -d 'Print help'
# Options: made by tools/options
complete -c lc -n '__lc_command_is count diff explain' -l exclude -x -d 'Skip what PATTERN matches'
complete -c lc -n '__lc_command_is count diff explain' -l exclude-from -r -F -d 'Skip what the patterns in FILE match'
complete -c lc -n '__lc_command_is count diff explain' -l include -x -d 'Count only files that PATTERN matches'
complete -c lc -n '__lc_command_is count diff explain' -l no-ignore -d 'Read no .gitignore'
complete -c lc -n '__lc_command_is count diff explain' -l archive -d 'Skip what has the attribute export-ignore'
complete -c lc -n '__lc_command_is count diff explain' -l without -x -a 'linguist-vendored linguist-generated linguist-documentation' -d 'Skip what has this attribute'
complete -c lc -n '__lc_command_is count diff explain' -l attributes-from -r -F -d 'Read attributes in FILE, too'
complete -c lc -n '__lc_command_is count diff' -l only -r -F -d 'Count only what is at or under PATH'
complete -c lc -n '__lc_command_is count diff' -l only-from -r -F -d 'Count only the paths that FILE lists'
complete -c lc -n '__lc_command_is count' -l null -s 0 -d 'Paths that are read or printed end with NUL'
complete -c lc -n '__lc_command_is diff' -l null -s 0 -d 'Paths that are read end with NUL'
complete -c lc -n '__lc_command_is count diff' -l one-file-system -s x -d 'Skip directories on other file systems'
complete -c lc -n '__lc_command_is count sum' -l files -d 'Also print a line for each counted file'
complete -c lc -n '__lc_command_is count sum' -l left-out -d 'Also print each skipped entry, and why'
complete -c lc -n '__lc_command_is count sum' -l where -x -a 'lang= ext= text= eol= attr: lines\> blank\> bytes\>' -d 'Show only files that meet a condition'
complete -c lc -n '__lc_command_is count sum diff' -l no-binary -d 'Show only files without a NUL byte'
complete -c lc -n '__lc_command_is count sum' -l format -x -a "tsv\t'Fields between tabs' table\t'Columns for reading' json\t'One object' csv\t'Records of one kind' markdown\t'Tables for a page' html\t'A picture for a browser' tree\t'Directories as a tree' paths\t'Paths for xargs'" -d 'How to print'
complete -c lc -n '__lc_command_is count sum' -l by -x -a '(__lc_columns dir lang ext text eol)' -d 'Sum rows by these columns'
complete -c lc -n '__lc_command_is count sum diff' -l depth -x -a '1 2 3' -d 'Cut the directories of rows, or of a tree, at this depth'
complete -c lc -n '__lc_command_is count sum' -l sort -x -a "name\t'By name' files\t'Most files first' lines\t'Most lines first' blank\t'Most blank lines first' bytes\t'Most bytes first'" -d 'Sort rows and files, largest first, or by name'
complete -c lc -n '__lc_command_is count sum diff' -l top -x -a '10 20 50' -d 'Print only the first rows and files'
complete -c lc -n '__lc_command_is count sum' -l share -d 'Also print the share of each row in the total'
complete -c lc -n '__lc_command_is sum' -l null -s 0 -d 'Paths of --format paths end with NUL'
complete -c lc -n '__lc_command_is count sum' -l fail-if-any -d 'Exit with status 4 if a file is counted'
complete -c lc -n '__lc_command_is count diff' -l threads -s j -x -a '1 2 4 8 16' -d 'Number of threads, 1 to 16'
complete -c lc -n '__lc_command_is count diff' -l max-dirs -x -a '65536 1048576' -d 'Limit of directories, 1 to 1048576'
complete -c lc -n '__lc_command_is diff' -l all -d 'Also print rows in which nothing changed'
complete -c lc -n '__lc_command_is diff' -l files -d 'Also print a line for each file that differs'
complete -c lc -n '__lc_command_is diff' -l where -x -a 'lang= ext= text= eol= attr: lines\> blank\> bytes\> change=' -d 'Compare only files that meet a condition'
complete -c lc -n '__lc_command_is diff' -l format -x -a "tsv\t'Fields between tabs' table\t'Columns for reading' json\t'One object' csv\t'Records of one kind' markdown\t'Tables for a page'" -d 'How to print'
complete -c lc -n '__lc_command_is diff' -l by -x -a '(__lc_columns dir lang ext text eol)' -d 'Sum rows by these columns'
complete -c lc -n '__lc_command_is diff' -l sort -x -a "name\t'By name' files\t'Largest change of files first' lines\t'Largest change of lines first' blank\t'Largest change of blank lines first' bytes\t'Largest change of bytes first'" -d 'Sort rows and files, largest change first, or by name'
complete -c lc -n '__lc_command_is diff' -l fail-if-any -d 'Exit with status 4 if a row or a file differs'
complete -c lc -n '__lc_command_is check' -l explain -d 'Also print the rule that decides'
complete -c lc -n '__lc_command_is explain check' -l null -s 0 -d 'Paths that are read end with NUL'
# the options end here
complete -c lc -n '__lc_command_is count' -a '(__fish_complete_directories)'
complete -c lc -n '__lc_command_is explain' -F
complete -c lc -n '__lc_command_is check' -F
complete -c lc -n '__lc_command_is sum' -F
complete -c lc -n '__lc_command_is diff' -F
complete -c lc -n '__lc_command_is help' -a 'count sum diff explain check languages'
